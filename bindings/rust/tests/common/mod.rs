//! A small heap for the tests: one segment of either size, which records of one pointer and 600 values fill, four at 16 KiB and eight at 32.
#![allow(dead_code)] // each test takes what it needs

use borvukhai::{MutatorId, SegmentSize, Segments, Shape, raw};

pub const ONE: Segments = Segments::MIN;
pub const SHAPE: Shape = Shape::new(1, 600);
pub const STATES: usize = ONE.states_length();
pub const SHEET: usize = ONE.sheet_length();

/// A mutator's number that is known to be one.
pub const fn id(number: u32) -> MutatorId {
    MutatorId::new(number).unwrap()
}

/// How many records of SHAPE fill a segment.
pub fn fill(size: SegmentSize) -> u32 {
    size.blocks(12)
}

/// The words of an opened heap with mutator 0 inside.
pub fn fresh(size: SegmentSize) -> Vec<u32> {
    let mut words = vec![0xa5a5_a5a5; ONE.length(size)];
    raw::open(1, size.kib(), &mut words).unwrap();
    raw::attach(1, size.kib(), &mut words, 0).unwrap();
    words
}

/// The same with records in the roots from 0 on, so that the segment is full.
pub fn full(size: SegmentSize) -> Vec<u32> {
    let mut words = fresh(size);
    for root in 0..fill(size) {
        raw::make(1, size.kib(), &mut words, 0, root, SHAPE.pointers, SHAPE.values).unwrap();
    }
    words
}

/// A scratch for the examination, not 0.
pub fn scratch(size: SegmentSize) -> Vec<u32> {
    vec![7; ONE.scratch_length(size)]
}

/// Words of docs/LAYOUT.md that the torn cases break, for one segment.
pub mod at {
    use borvukhai::SegmentSize;

    pub const PHASE: usize = 0;
    pub const TRACE_COUNT: usize = 1;
    /// Root 0 of mutator 0.
    pub const ROOT: usize = 16;
    /// The segments that mutator 0 holds, by class from 3 on.
    pub const HOLDS: usize = 16 + 18;
    /// That of class 12.
    pub const HELD: usize = HOLDS + 9;

    /// The words of segment 0, which begin at word 1040.
    pub fn words(size: SegmentSize) -> usize {
        match size {
            SegmentSize::Kib16 => 4096,
            SegmentSize::Kib32 => 8192,
        }
    }
    /// The tag, the mutator and the two counts of segment 0's record.
    pub fn tag(size: SegmentSize) -> usize {
        1040 + words(size)
    }
    pub fn holder(size: SegmentSize) -> usize {
        tag(size) + 3
    }
    pub fn kept(size: SegmentSize) -> usize {
        tag(size) + 4
    }
    pub fn handed_out(size: SegmentSize) -> usize {
        tag(size) + 5
    }
    /// The count of the free stack.
    pub fn free_count(size: SegmentSize) -> usize {
        tag(size) + 6
    }
    /// The part stacks, each a count and an entry, by class from 3 on.
    pub fn parts(size: SegmentSize) -> usize {
        free_count(size) + 2
    }
}

/// The words of `full` with segment 0 in any state, and a class that is another's or none. Mutator 0 holds it for every class, or it is on
/// every part stack, so that each call meets it.
pub fn torn_classes(size: SegmentSize) -> impl Iterator<Item = Vec<u32>> {
    let classes = [13, 14, 15, 16, u32::MAX].into_iter();
    let cases = classes.flat_map(|class| (0..50).map(move |n| (class, n % 5, n / 5 % 5, n / 25)));
    cases.map(move |(class, tag, phase, held)| {
        let mut words = full(size);
        words[at::PHASE] = phase;
        words[at::tag(size)..at::tag(size) + 3].copy_from_slice(&[tag, class, 0]);
        words[at::HOLDS..at::HOLDS + 12].fill(held);
        for stack in words[at::parts(size)..at::parts(size) + 2 * 12].chunks_exact_mut(2) {
            stack.copy_from_slice(&[1 - held, 0]);
        }
        words
    })
}

/// The words of `full` with one or both counts of segment 0 another number, in any phase.
pub fn torn_counts(size: SegmentSize) -> impl Iterator<Item = Vec<u32>> {
    let blocks = fill(size);
    let numbers = [1, blocks, blocks + 1, 1 << 31, u32::MAX].into_iter();
    let counts = numbers.flat_map(move |n| [(n, blocks), (0, n), (n, n), (n, u32::MAX - n)]).filter(move |&counts| counts != (0, blocks));
    counts.flat_map(|counts| (0..5).map(move |phase| (counts, phase))).map(move |((kept, handed_out), phase)| {
        let mut words = full(size);
        words[at::PHASE] = phase;
        words[at::tag(size)] = if phase == 0 { 3 } else { 4 };
        (words[at::kept(size)], words[at::handed_out(size)]) = (kept, handed_out);
        words
    })
}

/// A reference one past the last word of the heap.
pub fn off_heap(size: SegmentSize) -> u32 {
    at::words(size) as u32 + 1
}
