//! Where docs/LAYOUT.md puts the verified library's words, at either segment size: for damage to torn memory, for coverage counters, to see
//! which block a make handed out, to count blocks in use by places and bits, and to check bitmaps level by level.

/// The word of the sweep's cursor.
pub const CURSOR: usize = 2;
pub const MUTATORS: usize = 16;
pub const HEAP: usize = 1040;

/// The classes.
pub const LOWEST: u32 = 3;
pub const HIGHEST: u32 = 14;
pub const CLASSES: usize = (HIGHEST - LOWEST) as usize + 1;
/// The stacks: the free one, then a part stack for each class.
pub const STACKS: usize = 1 + CLASSES;

/// The words of a segment's record, which the look at the states gives as they are: state, class, place, mutator, and the two counts.
pub const RECORD_WORDS: usize = 6;
/// The counts: of the blocks kept at the segment's last sweep, and of those handed out since.
pub const KEPT: usize = 4;
pub const HANDED_OUT: usize = 5;
/// The states: free, part, held, full, condemned.
pub const STATES: usize = 5;

pub fn is_class(class: u32) -> bool {
    (LOWEST..=HIGHEST).contains(&class)
}

/// The sizes of a segment in KiB.
pub const SIZES: [u32; 2] = [16, 32];

/// What each call over a heap names: the count of its segments, and their size in KiB.
#[derive(Clone, Copy, PartialEq, Eq, PartialOrd, Ord, Debug)]
pub struct Geometry {
    pub segments: u32,
    pub kib: u32,
}

impl Geometry {
    /// The same count of segments of another size, 16 KiB for 32 and 32 for 16.
    pub fn other_size(self) -> Geometry {
        Geometry { kib: 48 - self.kib, ..self }
    }

    pub fn is_count(self) -> bool {
        (1..=256).contains(&self.segments)
    }

    pub fn is_size(self) -> bool {
        SIZES.contains(&self.kib)
    }

    /// The count, as an index.
    pub fn n(self) -> usize {
        self.segments as usize
    }

    /// Of a segment: its words, those of its bitmap, those of its marks, and its entries of the trace stack. Where there is no such size, none.
    fn words(self) -> [usize; 4] {
        match self.kib {
            16 => [4096, 67, 64, 2048],
            32 => [8192, 133, 128, 4096],
            _ => [0; 4],
        }
    }

    pub fn segment_words(self) -> usize {
        self.words()[0]
    }

    pub fn bitmap_words(self) -> usize {
        self.words()[1]
    }

    pub fn mark_words(self) -> usize {
        self.words()[2]
    }

    /// The blocks of class 3, of which a segment has the most.
    pub fn most_blocks(self) -> u32 {
        self.words()[3] as u32
    }

    /// The number of blocks in a segment of the class.
    pub fn blocks(self, class: u32) -> u32 {
        blocks(self.kib, class)
    }

    /// The words of the memory, of the output of the look at the states and of the scratch of the examination, and the bytes of the sheet,
    /// where it is one.
    pub fn lengths(self) -> [usize; 4] {
        let n = self.n();
        let sheet = || 52 * n + (n - 1) / 60;
        match (self.is_count(), self.kib) {
            (true, 16) => [6294 * n + 1053, 6 * n, 2176 * n, sheet()],
            (true, 32) => [12568 * n + 1053, 6 * n, 4352 * n, sheet()],
            _ => [0; 4],
        }
    }
}

/// The number of blocks of the class in a segment of so many KiB.
pub fn blocks(kib: u32, class: u32) -> u32 {
    (1024 * kib) >> class
}

impl std::fmt::Display for Geometry {
    fn fmt(&self, out: &mut std::fmt::Formatter<'_>) -> std::fmt::Result {
        write!(out, "{} segments of {} KiB", self.segments, self.kib)
    }
}

/// The smallest class whose block holds a header and `fields` words.
pub fn class_of(fields: u32) -> u32 {
    (LOWEST..HIGHEST).find(|class| fields < (1 << class) / 4).unwrap_or(HIGHEST)
}

/// The regions in order: where each begins, and behind the last one the end.
pub fn regions(g: Geometry) -> [usize; 9] {
    let n = g.n();
    match g.kib {
        32 => [0, MUTATORS, HEAP, 1040 + 8192 * n, 1040 + 8198 * n, 1053 + 8211 * n, 1053 + 8344 * n, 1053 + 8472 * n, 1053 + 12568 * n],
        _ => [0, MUTATORS, HEAP, 1040 + 4096 * n, 1040 + 4102 * n, 1053 + 4115 * n, 1053 + 4182 * n, 1053 + 4246 * n, 1053 + 6294 * n],
    }
}

pub fn acknowledgements(memory: &[u32], mutator: u32) -> u32 {
    memory[MUTATORS + 32 * mutator as usize + 17]
}

pub fn root(memory: &[u32], mutator: u32, root: u32) -> u32 {
    memory[MUTATORS + 32 * mutator as usize + root as usize]
}

/// The word of a mutator's entry for the segment that it holds of the class.
pub fn held_at(mutator: u32, class: u32) -> usize {
    MUTATORS + 32 * mutator as usize + 15 + class as usize
}

/// 0, or 1 + the segment that the mutator holds of the class.
pub fn held(memory: &[u32], mutator: u32, class: u32) -> u32 {
    memory[held_at(mutator, class)]
}

pub fn phase(memory: &[u32]) -> u32 {
    memory[0]
}

/// 0 absent, 1 inside, 2 outside.
pub fn side(memory: &[u32], mutator: u32) -> u32 {
    memory[MUTATORS + 32 * mutator as usize + 16]
}

/// The number of the bit of a block of the class among the marks.
pub fn mark_bit(g: Geometry, segment: u32, class: u32, block: u32) -> usize {
    (g.most_blocks() * segment + (block << class) / 8) as usize
}

/// Where that bit stands: the word, and which of its bits.
pub fn mark_at(g: Geometry, segment: u32, class: u32, block: u32) -> (usize, usize) {
    let bit = mark_bit(g, segment, class, block);
    (regions(g)[6] + bit / 32, bit % 32)
}

/// Whether the block is marked or on the trace stack.
pub fn marked_or_queued(memory: &[u32], g: Geometry, segment: u32, block: u32) -> bool {
    let (word, bit) = mark_at(g, segment, self::segment(memory, g, segment)[1], block);
    memory[word] >> bit & 1 == 1
}

/// How many entries the trace stack has.
pub fn trace_count(memory: &[u32]) -> usize {
    memory[1] as usize
}

/// An entry of the trace stack, the first entered first.
pub fn trace_entry(memory: &[u32], g: Geometry, number: usize) -> u32 {
    memory[regions(g)[7] + number]
}

/// Where a segment's record begins.
pub fn record_at(g: Geometry, number: u32) -> usize {
    regions(g)[3] + RECORD_WORDS * number as usize
}

/// The words of a segment's record.
pub fn segment(memory: &[u32], g: Geometry, number: u32) -> [u32; RECORD_WORDS] {
    let at = record_at(g, number);
    std::array::from_fn(|word| memory[at + word])
}

/// The segments' records in the memory, one after the other.
pub fn all_records(memory: &[u32], g: Geometry) -> &[u32] {
    &memory[record_at(g, 0)..record_at(g, g.segments)]
}

/// Record by record, of a look at the states.
pub fn each_segment(states: &[u32]) -> std::slice::ChunksExact<'_, u32> {
    states.chunks_exact(RECORD_WORDS)
}

/// The two counts of a segment's record.
pub fn counts_of(record: &[u32]) -> [u32; 2] {
    [record[KEPT], record[HANDED_OUT]]
}

/// Where the count of a stack stands, with the entries behind it: stack 0 is the free one, 1 + (c - 3) the part stack of class c.
pub fn stack_at(g: Geometry, stack: usize) -> usize {
    regions(g)[4] + stack * (1 + g.n())
}

/// The segment on top of a stack.
pub fn top(memory: &[u32], g: Geometry, stack: usize) -> Option<u32> {
    let at = stack_at(g, stack);
    match memory[at] as usize {
        0 => None,
        count => memory.get(at + count).copied(),
    }
}

/// The segment from which a make of the class takes its block: the one that the mutator holds, else the topmost part one, else the topmost
/// free one.
pub fn taken(memory: &[u32], g: Geometry, mutator: u32, class: u32) -> Option<u32> {
    let part = 1 + (class - LOWEST) as usize;
    match held(memory, mutator, class) {
        0 => top(memory, g, part).or_else(|| top(memory, g, 0)),
        held => Some(held - 1),
    }
}

/// Whether a segment of one block is part or held: it is full from its first block. At 32 KiB no class has one block.
pub fn shared_of_one_block(g: Geometry, state: &[u32]) -> bool {
    matches!(state[0], 1 | 2) && g.blocks(state[1]) == 1
}

/// Where a segment's bitmap begins.
pub fn bitmap_at(g: Geometry, segment: u32) -> usize {
    regions(g)[5] + g.bitmap_words() * segment as usize
}

/// Whether the block's bit at level 0 of its segment's bitmap is 1.
pub fn block_bit(memory: &[u32], g: Geometry, segment: u32, block: u32) -> bool {
    memory[bitmap_at(g, segment) + block as usize / 32] >> (block % 32) & 1 == 1
}

/// Whether the block lies before its segment's place or its bit is 1, in a segment that is not free.
pub fn in_use(memory: &[u32], g: Geometry, number: u32, block: u32) -> bool {
    let [state, _, place, ..] = segment(memory, g, number);
    state != 0 && (block < place || block_bit(memory, g, number, block))
}

/// So many of the lowest bits of a word.
fn lowest(bits: u32) -> u32 {
    if bits < 32 {
        (1 << bits) - 1
    } else {
        u32::MAX
    }
}

/// Of a segment whose class is one, each word of level 0, its bits that stand for blocks, and those of them that lie before the place.
fn level0(memory: &[u32], g: Geometry, number: u32) -> impl Iterator<Item = (u32, u32, u32)> + '_ {
    let [_, class, place, ..] = segment(memory, g, number);
    let (blocks, words) = (g.blocks(class), &memory[bitmap_at(g, number)..]);
    (0..blocks).step_by(32).zip(words).map(move |(first, &word)| {
        let here = lowest(blocks - first);
        (word, here, here & lowest(place.saturating_sub(first)))
    })
}

/// What the two counts of a segment are to be by its place and its bits: the 1 bits among its blocks, and the 0 bits before its place; both
/// are 0 in a free segment, and where the class is none nothing is asked.
pub fn counts_due(memory: &[u32], g: Geometry, number: u32) -> Option<[u32; 2]> {
    let [state, class, ..] = segment(memory, g, number);
    if state == 0 {
        return Some([0, 0]);
    }
    is_class(class).then(|| {
        level0(memory, g, number)
            .fold([0, 0], |[kept, handed_out], (word, here, before)| [kept + (word & here).count_ones(), handed_out + (!word & before).count_ones()])
    })
}

/// Whether the counts of a segment are what they are to be.
pub fn counts_right(memory: &[u32], g: Geometry, number: u32) -> bool {
    let counts = counts_of(&segment(memory, g, number));
    counts_due(memory, g, number).is_none_or(|due| due == counts)
}

/// Whether those of every segment are.
pub fn all_counts_right(memory: &[u32], g: Geometry) -> bool {
    (0..g.segments).all(|number| counts_right(memory, g, number))
}

/// The blocks of a segment that are in use, a bit each, 32 to a word: they lie before its place, or their bit is 1;
/// none of a free one.
pub fn used(memory: &[u32], g: Geometry, number: u32) -> impl Iterator<Item = u32> + '_ {
    let words = if segment(memory, g, number)[0] == 0 { 0 } else { usize::MAX };
    level0(memory, g, number).take(words).map(|(word, here, before)| word & here | before)
}

/// How many blocks of a segment are in use. No count is read.
pub fn segment_in_use(memory: &[u32], g: Geometry, number: u32) -> u32 {
    used(memory, g, number).map(u32::count_ones).sum()
}

/// How many are in all segments that are not free.
pub fn blocks_in_use(memory: &[u32], g: Geometry) -> u64 {
    (0..g.segments).map(|number| u64::from(segment_in_use(memory, g, number))).sum()
}

/// The words of each level of a bitmap tree of so many blocks, level 0 first; the last has one.
fn levels(blocks: u32) -> &'static [usize] {
    match blocks {
        4096 => &[128, 4, 1],
        2048 => &[64, 2, 1],
        1024 => &[32, 1],
        512 => &[16, 1],
        256 => &[8, 1],
        128 => &[4, 1],
        64 => &[2, 1],
        _ => &[1],
    }
}

/// Whether the bitmap of a segment of a class is a tree: each bit above level 0 is 1 exactly where its word below is all ones, and the bits
/// past a level's end are 1.
fn is_tree(words: &[u32], blocks: u32) -> bool {
    let (mut at, mut bits) = (0, blocks as usize);
    for &count in levels(blocks) {
        let past = (bits..32 * count).all(|bit| words[at + bit / 32] >> (bit % 32) & 1 == 1);
        let summed = at == 0 || (0..bits).all(|bit| (words[at + bit / 32] >> (bit % 32) & 1 == 1) == (words[at - bits + bit] == u32::MAX));
        if !past || !summed {
            return false;
        }
        (at, bits) = (at + count, count);
    }
    true
}

/// Whether the bitmaps of all segments that are not free, and whose class is one, are trees.
pub fn all_trees(memory: &[u32], g: Geometry) -> bool {
    (0..g.segments).all(|number| {
        let [state, class, ..] = segment(memory, g, number);
        state == 0 || !is_class(class) || is_tree(&memory[bitmap_at(g, number)..], g.blocks(class))
    })
}
