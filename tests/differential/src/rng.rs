//! A small deterministic generator (splitmix64): the whole campaign follows from its seed.

pub struct Rng(u64);

/// One round of splitmix64's mixing, also used to derive the seed of a list from the campaign's seed and the list's number.
pub fn mix(word: u64) -> u64 {
    let word = (word ^ (word >> 30)).wrapping_mul(0xbf58_476d_1ce4_e5b9);
    let word = (word ^ (word >> 27)).wrapping_mul(0x94d0_49bb_1331_11eb);
    word ^ (word >> 31)
}

impl Rng {
    pub fn new(seed: u64) -> Rng {
        Rng(mix(seed ^ 0x6a09_e667_f3bc_c908))
    }

    pub fn next(&mut self) -> u64 {
        self.0 = self.0.wrapping_add(0x9e37_79b9_7f4a_7c15);
        mix(self.0)
    }

    pub fn word(&mut self) -> u32 {
        (self.next() >> 32) as u32
    }

    /// A number below `bound`, which is not 0.
    pub fn below(&mut self, bound: u32) -> u32 {
        ((u64::from(self.word()) * u64::from(bound)) >> 32) as u32
    }

    /// A number from `low` to `high`, both included.
    pub fn between(&mut self, low: u32, high: u32) -> u32 {
        low + self.below(high - low + 1)
    }

    /// True in `parts` of 1024 draws.
    pub fn chance(&mut self, parts: u32) -> bool {
        self.below(1024) < parts
    }

    pub fn pick<T: Copy>(&mut self, from: &[T]) -> T {
        from[self.below(from.len() as u32) as usize]
    }

    /// The number of one of the bits that are 1 in `mask`, or nothing where there is none.
    pub fn bit(&mut self, mask: u32) -> Option<u32> {
        if mask == 0 {
            return None;
        }
        let turn = self.below(32);
        Some((mask.rotate_right(turn).trailing_zeros() + turn) % 32)
    }
}
