//! The numbers of a call: mostly such that the call is not refused, by chance at a bound or past it.

use crate::choose::Chooser;
use crate::layout;
use crate::unbounded::{UnboundedHeap, MOST_FIELDS};

const FAR: [u32; 7] = [16, 17, 31, 32, 33, 0x8000_0000, u32::MAX];
/// Counts of pointers and values where the last classes begin, at the bound of 4,095, past it and far past it, and with sums that wrap.
const SIZES: [(u32, u32); 36] = [
    (1023, 0),
    (0, 1023),
    (511, 512),
    (1024, 0),
    (0, 1024),
    (512, 512),
    (1, 1023),
    (2047, 0),
    (0, 2047),
    (1024, 1023),
    (2048, 0),
    (0, 2048),
    (1024, 1024),
    (2047, 1),
    (4094, 0),
    (0, 4094),
    (4095, 0),
    (0, 4095),
    (2047, 2048),
    (2048, 2047),
    (4096, 0),
    (0, 4096),
    (2048, 2048),
    (1, 4095),
    (4095, 1),
    (4097, 0),
    (8191, 0),
    (65536, 0),
    (0, 65536),
    (u32::MAX, 1),
    (1, u32::MAX),
    (u32::MAX, 1024),
    (4096, u32::MAX),
    (0x8000_0000, 0x8000_0000),
    (0xffff_f001, 0x1000),
    (u32::MAX, u32::MAX),
];

impl Chooser {
    fn bad(&mut self) -> bool {
        self.rng.chance(self.plan.bad)
    }

    /// Mostly one of the mutators in the mask.
    pub fn mutator(&mut self, mask: u32) -> u32 {
        if self.bad() {
            return match self.rng.below(3) {
                0 => self.rng.pick(&[31, 32, 33, 63, 64, u32::MAX]),
                1 => self.rng.below(32),
                _ => self.rng.word(),
            };
        }
        self.rng.bit(mask).unwrap_or(0)
    }

    pub fn root(&mut self) -> u32 {
        if self.bad() {
            return match self.rng.below(3) {
                0 => 15,
                1 => self.rng.pick(&FAR),
                _ => self.rng.word(),
            };
        }
        // Where rows are made, their heads stand in the upper roots and stay a while.
        let keep = self.plan.profile.rows && self.rng.chance(1010);
        self.rng.below(if keep { 8 } else { 16 })
    }

    /// Mostly a root with a record.
    pub fn filled(&mut self, heap: &UnboundedHeap, mutator: u32) -> u32 {
        let root = self.root();
        match mutator {
            0..32 if root < 16 && self.rng.chance(800) => self.rng.bit(heap.filled(mutator)).unwrap_or(root),
            _ => root,
        }
    }

    /// A root, most often one with a record that has such a field, and the number of a pointer (true) or a value (false) of it.
    pub fn field(&mut self, heap: &UnboundedHeap, mutator: u32, pointer: bool) -> (u32, u32) {
        let mut root = self.root();
        let mut count = 0;
        for _ in 0..4 {
            let record = (mutator < 32 && root < 16).then(|| heap.record(mutator, root)).flatten();
            count = record.map_or(0, |record| if pointer { record.pointers } else { record.values });
            if count > 0 || mutator > 31 || self.rng.chance(40) {
                break;
            }
            root = self.rng.bit(heap.filled(mutator)).unwrap_or(root);
        }
        if count == 0 || self.bad() {
            let far = [count, count.wrapping_sub(1), count + 1, 0, 1023, 1024, MOST_FIELDS, 65536, u32::MAX];
            return (root, self.rng.pick(&far));
        }
        let field = match self.rng.below(8) {
            0..=4 => self.rng.below(count.min(3)),
            5 => count - 1 - self.rng.below(count.min(3)),
            _ => self.rng.below(count),
        };
        (root, field)
    }

    pub fn shape(&mut self) -> (u32, u32) {
        if self.bad() {
            return self.rng.pick(&SIZES);
        }
        let class = match self.rng.below(40) {
            0 => self.rng.between(layout::LOWEST, layout::HIGHEST),
            _ => self.rng.pick(&self.plan.palette),
        };
        let most = (1 << class) / 4 - 1;
        let least = if class == layout::LOWEST { 0 } else { (1 << class) / 8 };
        let fields = match self.rng.below(4) {
            0 => most,
            1 => least,
            _ => self.rng.between(least, most),
        };
        let pointers = match self.rng.below(4) {
            0 => fields,
            1 => fields.min(2),
            _ => self.rng.between(0, fields),
        };
        (pointers, fields - pointers)
    }
}
