//! Memory of any content: words at random, or a used heap with words changed, region by region of docs/LAYOUT.md.

use crate::layout::{self, Geometry};
use crate::rng::Rng;

/// Fills the memory anew: from `base`, a used heap, then damaged, or with words that no heap has.
pub fn tear(rng: &mut Rng, memory: &mut [u32], base: &[u32], g: Geometry) {
    match rng.below(16) {
        0 => memory.fill_with(|| rng.word()),
        1 => {
            let bound = rng.pick(&[2, 5, layout::HIGHEST + 2, 64, 4096]);
            memory.fill_with(|| rng.below(bound));
        }
        2 => memory.fill(rng.pick(&[0, 1, u32::MAX, 0x0001_0001])),
        3 => {
            let most = memory.len() as u32 - 1;
            let by = rng.between(1, most.min(5000)) as usize;
            memory.copy_from_slice(base);
            memory.rotate_right(by);
        }
        _ => {
            memory.copy_from_slice(base);
            for _ in 0..rng.pick(&[0, 1, 1, 1, 2, 3, 6, 40]) {
                damage(rng, memory, g);
            }
        }
    }
}

/// Fills the memory with a used heap that is changed where the examination may let it pass.
pub fn tweak(rng: &mut Rng, memory: &mut [u32], base: &[u32], g: Geometry) {
    memory.copy_from_slice(base);
    for _ in 0..rng.pick(&[1, 1, 2, 4]) {
        match rng.below(11) {
            0 => damage(rng, memory, g),
            1 => acknowledge(rng, memory),
            2 => exchange(rng, memory, 1, layout::regions(g)[7], g.most_blocks()),
            3 => {
                let stack = layout::stack_at(g, rng.below(layout::STACKS as u32) as usize);
                exchange(rng, memory, stack, stack + 1, g.segments);
            }
            4 => set_bits(rng, memory, g),
            5 => memory[layout::CURSOR] = rng.below(g.segments + 2),
            6 => segment_word(rng, memory, g),
            7 => hollow(rng, memory, g),
            8 => condemned_place(rng, memory, g),
            9 => condemn_part(rng, memory, g),
            _ => bitmap_bit(rng, memory, g),
        }
    }
}

/// Another number of acknowledgements for an attached mutator.
fn acknowledge(rng: &mut Rng, memory: &mut [u32]) {
    for m in (0..32).filter(|&m| layout::side(memory, m) != 0).collect::<Vec<_>>() {
        memory[layout::MUTATORS + 32 * m as usize + 17] = rng.below(3);
    }
}

/// Two entries of a stack change places, of the first `most`; `count` is where its count stands.
fn exchange(rng: &mut Rng, memory: &mut [u32], count: usize, entries: usize, most: u32) {
    let many = memory[count].min(most);
    if many > 1 {
        memory.swap(entries + rng.below(many) as usize, entries + rng.below(many) as usize);
    }
}

/// Some bits of a segment's marks, more of them before than behind.
fn set_bits(rng: &mut Rng, memory: &mut [u32], g: Geometry) {
    let words = g.mark_words() as u32;
    let at = layout::regions(g)[6] + (words * rng.below(g.segments)) as usize;
    for _ in 0..rng.between(1, 40) {
        memory[at + rng.below(words).min(rng.below(words)) as usize] |= 1 << rng.below(32);
    }
}

/// A segment's place moves, or its state changes.
fn segment_word(rng: &mut Rng, memory: &mut [u32], g: Geometry) {
    let at = layout::record_at(g, rng.below(g.segments));
    match rng.below(3) {
        0 => memory[at] = rng.below(5),
        _ => memory[at + 2] = memory[at + 2].wrapping_sub(rng.below(9)).wrapping_add(4),
    }
}

/// A condemned segment, where there is one.
fn some_condemned(rng: &mut Rng, memory: &[u32], g: Geometry) -> Option<u32> {
    let turn = rng.below(g.segments);
    let condemned = |segment: &u32| matches!(layout::segment(memory, g, *segment), [4, class, ..] if layout::is_class(class));
    (0..g.segments).map(|number| (number + turn) % g.segments).find(condemned)
}

/// The place of a condemned segment becomes any number up to its blocks: the examination says yes to it, with the counts that it asks for,
/// where no live record lies past it.
fn condemned_place(rng: &mut Rng, memory: &mut [u32], g: Geometry) {
    if let Some(segment) = some_condemned(rng, memory, g) {
        let at = layout::record_at(g, segment);
        memory[at + 2] = rng.below(g.blocks(memory[at + 1]) + 1);
    }
}

/// A part segment comes off its stack and is condemned, as if it had been part when the cycle began.
fn condemn_part(rng: &mut Rng, memory: &mut [u32], g: Geometry) {
    let turn = rng.below(layout::CLASSES as u32) as usize;
    let stacks = (0..layout::CLASSES).map(|number| 1 + (number + turn) % layout::CLASSES);
    let tops = stacks.filter_map(|stack| Some((stack, layout::top(memory, g, stack)?)));
    if let Some((stack, segment)) = tops.filter(|&(_, segment)| segment < g.segments).last() {
        memory[layout::stack_at(g, stack)] -= 1;
        memory[layout::record_at(g, segment)] = 4;
    }
}

/// What is torn, and nothing else, in memory that passes the examination, which then says no: of a condemned segment its place, that it is on
/// no stack, or its marks; or what the part stacks' counts are, which a start makes 0.
pub const AIMS: [&str; 5] = [
    "a condemned segment's place past its blocks",
    "a condemned segment on the part stack of its class",
    "a condemned segment on the free stack",
    "a mark in a condemned segment of a block that is not in use",
    "another count of a part stack",
];
pub const PART_COUNT: usize = 4;

/// One of those; the last where there is no condemned segment, or none with such a block.
pub fn tear_aimed(rng: &mut Rng, memory: &mut [u32], g: Geometry) -> usize {
    let aim = rng.below(AIMS.len() as u32) as usize;
    let torn = match (aim, some_condemned(rng, memory, g)) {
        (0, Some(segment)) => Some(place_past_blocks(rng, memory, g, segment)),
        (1, Some(segment)) => {
            let class = layout::segment(memory, g, segment)[1];
            Some(push(memory, g, 1 + (class - layout::LOWEST) as usize, segment))
        }
        (2, Some(segment)) => Some(push(memory, g, 0, segment)),
        (3, Some(segment)) => mark_not_in_use(rng, memory, g, segment),
        _ => None,
    };
    if torn.is_none() {
        part_counts(rng, memory, g);
    }
    torn.map_or(PART_COUNT, |()| aim)
}

fn place_past_blocks(rng: &mut Rng, memory: &mut [u32], g: Geometry, segment: u32) {
    let at = layout::record_at(g, segment);
    let blocks = g.blocks(memory[at + 1]);
    memory[at + 2] = rng.pick(&[blocks + 1, 2 * blocks, 2049, 4097, 1 << 31, u32::MAX]);
}

/// The segment goes on a stack that has room for it.
fn push(memory: &mut [u32], g: Geometry, stack: usize, segment: u32) {
    let at = layout::stack_at(g, stack);
    memory[at] += 1;
    memory[at + memory[at] as usize] = segment;
}

/// The bit of a block that is not in use, where the segment has one.
fn mark_not_in_use(rng: &mut Rng, memory: &mut [u32], g: Geometry, segment: u32) -> Option<()> {
    let class = layout::segment(memory, g, segment)[1];
    let (blocks, turn) = (g.blocks(class), rng.below(g.blocks(class)));
    let unused = |block: &u32| !layout::in_use(memory, g, segment, *block);
    let block = (0..blocks).map(|number| (number + turn) % blocks).find(unused)?;
    let (word, bit) = layout::mark_at(g, segment, class, block);
    memory[word] |= 1 << bit;
    Some(())
}

/// The count of a part stack, or of every one, becomes another number.
fn part_counts(rng: &mut Rng, memory: &mut [u32], g: Geometry) {
    let (one, all) = (1 + rng.below(layout::CLASSES as u32) as usize, rng.chance(256));
    for stack in (1..layout::STACKS).filter(|&stack| all || stack == one) {
        let at = layout::stack_at(g, stack);
        let count = rng.pick(&[0, 1, g.segments, g.segments + 1, 1 << 31, u32::MAX, memory[at].wrapping_sub(1), memory[at] + 1]);
        memory[at] = if count == memory[at] { count + 1 } else { count };
    }
}

/// A free segment becomes one of the largest class, part or held, with no block in use: no call leaves that, and the examination says no to
/// it where the class has one block, at 16 KiB.
fn hollow(rng: &mut Rng, memory: &mut [u32], g: Geometry) {
    let starts = layout::regions(g);
    let (free, count) = (starts[4], memory[starts[4]] as usize);
    if count == 0 || count > g.n() || memory[free + count] >= g.segments {
        return;
    }
    let segment = memory[free + count];
    memory[free] -= 1;
    memory[layout::bitmap_at(g, segment)] = u32::MAX << g.blocks(layout::HIGHEST);
    let inside: Vec<u32> = (0..32).filter(|&m| layout::side(memory, m) == 1).collect();
    let state = if !inside.is_empty() && rng.chance(512) {
        let m = rng.pick(&inside);
        memory[layout::held_at(m, layout::HIGHEST)] = 1 + segment;
        [2, layout::HIGHEST, 0, m, 0, 0]
    } else {
        let stack = layout::stack_at(g, layout::STACKS - 1);
        let top = 1 + memory[stack].min(g.segments - 1);
        memory[stack] = top;
        memory[stack + top as usize] = segment;
        [1, layout::HIGHEST, 0, 0, 0, 0]
    };
    let record = layout::record_at(g, segment);
    memory[record..record + layout::RECORD_WORDS].copy_from_slice(&state);
}

/// Class words: of no class, of the last ones, past them, and at the bounds of shifts and of the 32 bits.
pub const CLASS_WORDS: [u32; 16] = [0, 1, 2, 3, 12, 13, 14, 15, 16, 31, 32, 33, 0x7fff_ffff, 0x8000_0000, 0xffff_fffe, 0xffff_ffff];

/// The class word of a segment, or of every one, becomes one of those: which, and where it stands.
pub fn tear_class(rng: &mut Rng, memory: &mut [u32], g: Geometry) -> (usize, usize) {
    let which = rng.below(CLASS_WORDS.len() as u32) as usize;
    let (one, all) = (rng.below(g.segments), rng.chance(512));
    let at = |segment: u32| layout::record_at(g, segment) + 1;
    for segment in (0..g.segments).filter(|&segment| all || segment == one) {
        memory[at(segment)] = CLASS_WORDS[which];
    }
    (which, at(one))
}

/// Tags that are no state's: past the last one, at the bounds of a byte and of the 32 bits.
pub const TAG_WORDS: [u32; 8] = [5, 6, 255, 256, 0x7fff_ffff, 0x8000_0000, 0xffff_fffe, 0xffff_ffff];

/// The tag of a segment becomes one of those: which, and where it stands.
pub fn tear_tag(rng: &mut Rng, memory: &mut [u32], g: Geometry) -> (usize, usize) {
    let (which, at) = (rng.below(TAG_WORDS.len() as u32) as usize, layout::record_at(g, rng.below(g.segments)));
    memory[at] = TAG_WORDS[which];
    (which, at)
}

/// Values of torn counts: numbers by themselves, by the segment's blocks and by the right count, and words at random.
pub const COUNT_VALUES: [&str; 9] = ["0", "1", "all", "one more than all", "2^31", "2^32 - 1", "one too many", "one too few", "any number of"];
const HALF_OF_ALL_WORDS: usize = 4;
const ONE_TOO_MANY: usize = 6;

/// A count in a segment's record that was torn.
#[derive(Clone, Copy)]
pub struct TornCount {
    pub segment: u32,
    /// The word of the record, 0 for the first of the two counts.
    pub which: usize,
    /// Which of the values it has, and what that is.
    pub value: usize,
    pub word: u32,
}

/// A segment in a state drawn before, where there is one.
fn of_some_state(rng: &mut Rng, memory: &[u32], g: Geometry) -> u32 {
    let (state, turn) = (rng.below(layout::STATES as u32), rng.below(g.segments));
    let alike = |segment: &u32| layout::segment(memory, g, *segment)[0] == state;
    (0..g.segments).map(|number| (number + turn) % g.segments).find(alike).unwrap_or(turn)
}

/// The value as a word, in a segment; the right count is taken for 0 where none is asked.
fn count_value(rng: &mut Rng, memory: &[u32], g: Geometry, segment: u32, which: usize, value: usize) -> u32 {
    let class = layout::segment(memory, g, segment)[1];
    let blocks = g.blocks(if layout::is_class(class) { class } else { layout::LOWEST });
    let due = layout::counts_due(memory, g, segment).unwrap_or_default()[which];
    [0, 1, blocks, blocks + 1, 1 << 31, u32::MAX, due.wrapping_add(1), due.wrapping_sub(1), rng.word()][value]
}

/// One of the two counts of a segment, or of every one, becomes one of those values. Where it is one too many the other may be one too few:
/// then their sum is right. Where it is 2^31 the other may be so too: then their sum is 0 if it wraps.
pub fn tear_count(rng: &mut Rng, memory: &mut [u32], g: Geometry) -> TornCount {
    let (one, all) = (of_some_state(rng, memory, g), rng.chance(128));
    let (which, value) = (rng.below(2) as usize, rng.below(COUNT_VALUES.len() as u32) as usize);
    let mut torn = TornCount { segment: one, which, value, word: 0 };
    for segment in (0..g.segments).filter(|&segment| all || segment == one) {
        let at = layout::record_at(g, segment) + layout::KEPT;
        memory[at + which] = count_value(rng, memory, g, segment, which, value);
        if value == ONE_TOO_MANY && rng.chance(512) {
            memory[at + 1 - which] = memory[at + 1 - which].wrapping_sub(1);
        }
        if value == HALF_OF_ALL_WORDS && rng.chance(256) {
            memory[at + 1 - which] = 1 << 31;
        }
        if segment == one {
            torn.word = memory[at + which];
        }
    }
    torn
}

/// The counts of every segment become what its place and its bits ask for.
pub fn recount(memory: &mut [u32], g: Geometry) {
    for segment in 0..g.segments {
        if let Some(due) = layout::counts_due(memory, g, segment) {
            let at = layout::record_at(g, segment) + layout::KEPT;
            memory[at..at + 2].copy_from_slice(&due);
        }
    }
}

/// A block's bit at level 0 of a bitmap.
fn bitmap_bit(rng: &mut Rng, memory: &mut [u32], g: Geometry) {
    let at = layout::bitmap_at(g, rng.below(g.segments));
    let most = rng.pick(&[1, 2, 8, g.mark_words() as u32]);
    memory[at + rng.below(most) as usize] |= 1 << rng.below(32);
}

/// A region, most often one of the small ones: begin and end.
fn region(rng: &mut Rng, memory: &[u32], g: Geometry) -> (usize, usize) {
    let starts = layout::regions(g);
    let number = rng.pick(&[0, 1, 1, 1, 2, 2, 3, 3, 4, 4, 5, 6, 6, 7]);
    (starts[number].min(memory.len() - 1), starts[number + 1].min(memory.len()))
}

/// A place in a region; in the control, the trace entries, the stacks and the heap the first words are those in use.
fn place(rng: &mut Rng, memory: &[u32], g: Geometry) -> usize {
    let (begin, end) = region(rng, memory, g);
    let length = ((end - begin) as u32).max(1);
    let length = match rng.below(3) {
        0 | 1 if begin == 0 => length.min(3),
        0 => length.min(64),
        1 => length.min(1024),
        _ => length,
    };
    begin + rng.below(length) as usize
}

/// One change: a bit, a word, a run of words copied, exchanged or filled.
pub fn damage(rng: &mut Rng, memory: &mut [u32], g: Geometry) {
    let at = place(rng, memory, g);
    match rng.below(8) {
        0 | 1 => memory[at] ^= 1 << rng.below(32),
        2..=4 => memory[at] = value(rng, memory, g),
        5 => {
            let from = place(rng, memory, g);
            let length = run(rng, memory, at.max(from));
            memory.copy_within(from..from + length, at);
        }
        6 => {
            let (begin, end) = region(rng, memory, g);
            for _ in 0..rng.between(1, 32) {
                let span = (end - begin).max(1) as u32;
                memory.swap(begin + rng.below(span) as usize, begin + rng.below(span) as usize);
            }
        }
        _ => {
            let length = run(rng, memory, at);
            let word = value(rng, memory, g);
            memory[at..at + length].fill(word);
        }
    }
}

fn run(rng: &mut Rng, memory: &[u32], at: usize) -> usize {
    (rng.between(1, 64) as usize).min(memory.len() - at)
}

/// Numbers at the bounds of phases, classes, states, mutators, roots, fields, blocks, words and the 32 bits.
const BOUNDS: [u32; 29] = [
    0, 1, 2, 3, 4, 5, 12, 13, 14, 15, 16, 31, 32, 33, 1023, 1024, 2047, 2048, 2049, 4095, 4096, 4097, 8191, 8192, 8193, 0x7fff_ffff, 0x8000_0000,
    0xffff_fffe, 0xffff_ffff,
];

/// A word that may lead a call astray: a number at a bound, a reference, a header, or a word from elsewhere.
fn value(rng: &mut Rng, memory: &[u32], g: Geometry) -> u32 {
    let (segments, heap) = (g.segments, g.segment_words() as u32 * g.segments);
    let bounds = [segments - 1, segments, segments + 1, g.most_blocks() * segments, heap - 1, heap, heap + 1];
    match rng.below(6) {
        0 => rng.pick(&bounds),
        1 => rng.pick(&BOUNDS),
        2 => 1 + (rng.below(heap) & !((1 << rng.below(layout::HIGHEST - 1)) - 1)),
        3 => {
            let bound = rng.pick(&[1100, 4200]);
            rng.below(bound) << 16 | rng.below(bound)
        }
        4 => memory[rng.below(memory.len() as u32) as usize],
        _ => rng.word(),
    }
}
