//! The looks: phase, segment states, sheet and examination. A look changes no word of the heap.

use crate::heap::Heap;
use crate::numbers::MutatorId;
use crate::raw;
use crate::refusal::{Refusal, Result};
use crate::segments::{STATE_WORDS, SegmentSize};

/// Where a cycle is.
#[derive(Clone, Copy, Debug, PartialEq, Eq, PartialOrd, Ord, Hash)]
pub enum Phase {
    /// No cycle runs.
    Idle,
    /// The first handshake (document 01: roll 1).
    Sync1,
    /// The second handshake (document 01: roll 2).
    Sync2,
    /// Records that are reached are marked.
    Mark,
    /// Segments of the collect set are swept.
    Sweep,
}

impl Phase {
    /// The upper 32 bits of the answer of phase.
    pub(crate) const fn unpack(number: u32) -> Result<Phase> {
        match number {
            0 => Ok(Phase::Idle),
            1 => Ok(Phase::Sync1),
            2 => Ok(Phase::Sync2),
            3 => Ok(Phase::Mark),
            4 => Ok(Phase::Sweep),
            _ => Err(Refusal::Torn),
        }
    }
}

/// What a segment is used for. A class is 3 to 14: its blocks have 2^class bytes. A place is the next block to look at, and the number of
/// blocks where the segment is full; one that is condemned keeps the place that it had.
#[derive(Clone, Copy, Debug, PartialEq, Eq, Hash)]
pub enum SegmentState {
    /// It has no record.
    Free,
    /// It has records, and room; no mutator holds it.
    Part {
        /// The size class.
        class: u32,
        /// The next block to look at.
        place: u32,
    },
    /// A mutator makes its records of this class in it.
    Held {
        /// The size class.
        class: u32,
        /// The next block to look at.
        place: u32,
        /// Who holds it.
        mutator: MutatorId,
    },
    /// It has no room.
    Full {
        /// The size class.
        class: u32,
        /// The number of blocks.
        place: u32,
    },
    /// It was full or part when the cycle began: it is in the collect set, not swept yet, and no make takes it.
    Condemned {
        /// The size class.
        class: u32,
        /// The place that it had when the cycle began.
        place: u32,
    },
}

impl SegmentState {
    /// The state that the first four words of a segment's record are.
    fn unpack(words: &[u32]) -> Result<SegmentState> {
        let &[tag, class, place, mutator] = words else {
            return Err(Refusal::Torn);
        };
        match tag {
            0 => Ok(SegmentState::Free),
            1 => Ok(SegmentState::Part { class, place }),
            2 => match MutatorId::new(mutator) {
                Some(mutator) => Ok(SegmentState::Held { class, place, mutator }),
                None => Err(Refusal::Torn),
            },
            3 => Ok(SegmentState::Full { class, place }),
            4 => Ok(SegmentState::Condemned { class, place }),
            _ => Err(Refusal::Torn),
        }
    }
}

/// What the look says of a segment: its state, and two counts of its blocks.
///
/// A sweep sets both counts, and each make adds 1 to the second one in the segment that its block is in. In memory that passes the
/// examination the two together are the segment's blocks in use, and both are 0 where it is free. Over other memory they may be any
/// numbers: the look tells them as they are.
#[derive(Clone, Copy, Debug, PartialEq, Eq, Hash)]
pub struct SegmentRecord {
    /// What it is used for.
    pub state: SegmentState,
    /// The blocks kept at its last sweep, 0 before one.
    pub kept: u32,
    /// The blocks handed out since that sweep, or since the opening where there was none.
    pub handed_out: u32,
}

impl SegmentRecord {
    /// The record that six words of the output of states are.
    fn unpack(words: &[u32]) -> Result<SegmentRecord> {
        let &[ref state @ .., kept, handed_out] = words else {
            return Err(Refusal::Torn);
        };
        Ok(SegmentRecord { state: SegmentState::unpack(state)?, kept, handed_out })
    }

    /// The blocks in use: those kept, and those handed out since. In memory that passes the examination they are no more than the
    /// segment's blocks, [`SegmentSize::most_blocks`] at most. It has 64 bits, as over other memory the sum may not fit in 32.
    #[inline]
    pub const fn in_use(self) -> u64 {
        self.kept as u64 + self.handed_out as u64
    }

    /// The most that can be in use when the phase becomes mark.
    const fn most_at_mark(self, size: SegmentSize) -> u64 {
        match self.state {
            SegmentState::Free => size.most_blocks() as u64,
            SegmentState::Part { class, .. } | SegmentState::Full { class, .. } => size.blocks(class) as u64,
            SegmentState::Held { class, .. } => size.blocks(class) as u64,
            SegmentState::Condemned { .. } => self.in_use(),
        }
    }
}

/// The records of the segments, from segment 0 on: what [`Heap::states`] answers.
#[derive(Clone, Debug)]
pub struct States<'o> {
    words: core::slice::ChunksExact<'o, u32>,
    size: SegmentSize,
}

impl<'o> States<'o> {
    /// The records in these words, if every six of them are one, of segments of this size.
    pub(crate) fn of(words: &'o [u32], size: SegmentSize) -> Result<States<'o>> {
        let words = words.chunks_exact(STATE_WORDS);
        for record in words.clone() {
            SegmentRecord::unpack(record)?;
        }
        Ok(States { words, size })
    }

    /// The blocks in use, of the segments that are still to come. In a look just after the step that moves to mark they
    /// are the B of [`cycle_end`](crate::cycle_end).
    pub fn blocks_in_use(&self) -> u64 {
        self.clone().map(SegmentRecord::in_use).sum()
    }

    /// How many of the segments that are still to come are condemned. In a look between a start and the first segment
    /// that is swept they are the C of [`cycle_end`](crate::cycle_end).
    pub fn condemned(&self) -> u32 {
        self.clone().map(|record| u32::from(matches!(record.state, SegmentState::Condemned { .. }))).sum()
    }

    /// The most blocks that can be in use when the phase next becomes mark, in the segments that are still to come, by a
    /// look in idle or in a handshake: of a condemned segment its blocks in use, as no make takes it; of any other that
    /// is not free all its blocks; of a free one [`SegmentSize::most_blocks`], as a make of any class may take it.
    pub fn most_at_mark(&self) -> u64 {
        self.clone().map(|record| record.most_at_mark(self.size)).sum()
    }
}

impl Iterator for States<'_> {
    type Item = SegmentRecord;

    fn next(&mut self) -> Option<SegmentRecord> {
        // `of` has seen that every six words are a record.
        SegmentRecord::unpack(self.words.next()?).ok()
    }

    fn size_hint(&self) -> (usize, Option<usize>) {
        self.words.size_hint()
    }
}

impl ExactSizeIterator for States<'_> {}

impl<M: AsRef<[u32]> + AsMut<[u32]>> Heap<M> {
    /// Where the cycle is. Refused Torn, over memory that fails the examination only.
    pub fn phase(&self) -> Result<Phase> {
        raw::phase(self.segments().count(), self.segment_size().kib(), self.memory())
    }

    /// The record of each segment, its state and its counts of blocks, from segment 0 on, through an output of
    /// [`Segments::states_length`](crate::Segments::states_length) words. Refused Size where the output has another length, and Torn.
    ///
    /// Over memory that fails the examination the library may name a holder over 31; that is Torn here too, and the output then holds the
    /// words that the library wrote. Otherwise a refusal leaves the output as it was.
    ///
    /// ```
    /// use borvukhai::{Heap, MutatorId, Root, SegmentRecord, SegmentSize, SegmentState, Segments, Shape};
    ///
    /// let mut heap = Heap::new(Segments::new(2).unwrap(), SegmentSize::Kib16);
    /// let id = MutatorId::new(5).unwrap();
    /// let mut mutator = heap.attach(id)?;
    /// for root in [Root::R0, Root::R1, Root::R2, Root::R2] {
    ///     mutator.make(root, Shape::new(1, 600))?;
    /// }
    ///
    /// // Four blocks were handed out; the cycle finds three records alive, and frees the fourth.
    /// let mut output = [0; 12];
    /// let full = SegmentState::Full { class: 12, place: 4 };
    /// let mut states = heap.states(&mut output)?;
    /// assert_eq!(states.next(), Some(SegmentRecord { state: full, kept: 0, handed_out: 4 }));
    /// assert_eq!(states.next(), Some(SegmentRecord { state: SegmentState::Free, kept: 0, handed_out: 0 }));
    /// assert_eq!(states.next(), None);
    /// heap.start()?;
    /// assert_eq!(heap.finish_cycle()?, 1);
    ///
    /// // The next make gets the block that became free.
    /// let part = SegmentState::Part { class: 12, place: 0 };
    /// assert_eq!(heap.states(&mut output)?.next(), Some(SegmentRecord { state: part, kept: 3, handed_out: 0 }));
    /// heap.mutator(id).make(Root::R3, Shape::new(1, 600))?;
    /// assert_eq!(heap.states(&mut output)?.next(), Some(SegmentRecord { state: full, kept: 3, handed_out: 1 }));
    /// assert_eq!(heap.states(&mut output)?.map(SegmentRecord::in_use).sum::<u64>(), 4);
    /// # Ok::<(), borvukhai::Refusal>(())
    /// ```
    pub fn states<'o>(&self, output: &'o mut [u32]) -> Result<States<'o>> {
        raw::states(self.segments().count(), self.segment_size().kib(), self.memory(), output)?;
        States::of(output, self.segment_size())
    }

    /// The sheet, a table of the segments to print, into an output of [`Segments::sheet_length`](crate::Segments::sheet_length) bytes of
    /// ASCII. Refused Size where the output has another length, and Torn; then the output is as it was.
    ///
    /// Each segment has a line of 51 characters and a line feed: its number, its class (`--` where it is free), a letter (`F` free, `P`
    /// part, `H` held, `L` full, `C` condemned), its blocks in use, its blocks not in use, and a bar of 32 characters that is filled as
    /// the segment is. An empty line follows every 60th segment where another one comes.
    ///
    /// Over memory that fails the examination this library refuses it Torn where a segment's tag is none, or where one that is not free
    /// has a class that is none, or counts that together are more than its blocks; there it promises no more than a sheet or Torn.
    ///
    /// ```
    /// use borvukhai::{Heap, MutatorId, Root, SegmentSize, Segments, Shape};
    ///
    /// const SEGMENTS: Segments = Segments::new(2).unwrap();
    /// const SIZE: SegmentSize = SegmentSize::Kib16;
    ///
    /// let mut heap = Heap::open(SEGMENTS, SIZE, [0; SEGMENTS.length(SIZE)])?;
    /// let mut mutator = heap.attach(MutatorId::new(0).unwrap())?;
    /// for root in [Root::R0, Root::R1, Root::R2] {
    ///     mutator.make(root, Shape::new(1, 600))?; // the fourth would fill the segment
    /// }
    ///
    /// let mut sheet = [0; SEGMENTS.sheet_length()];
    /// heap.sheet(&mut sheet)?;
    /// assert_eq!(
    ///     core::str::from_utf8(&sheet).unwrap(),
    ///     concat!(
    ///         "  0 12 H    3    1 ########################........\n",
    ///         "  1 -- F    0    0 ................................\n",
    ///     ),
    /// );
    /// # Ok::<(), borvukhai::Refusal>(())
    /// ```
    pub fn sheet(&self, output: &mut [u8]) -> Result<()> {
        raw::sheet(self.segments().count(), self.segment_size().kib(), self.memory(), output)
    }

    /// The [`sheet`](Heap::sheet) as a text of its own. Refused Torn, over memory that fails the examination only.
    #[cfg(feature = "alloc")]
    pub fn sheet_string(&self) -> Result<alloc::string::String> {
        let mut output = alloc::vec![0; self.segments().sheet_length()];
        self.sheet(&mut output)?;
        // Every byte is ASCII: of memory that passes the examination by the sheet's definition, of other memory by test.
        alloc::string::String::from_utf8(output).map_err(|_| Refusal::Torn)
    }

    /// The examination: whether the memory is consistent, through a scratch of
    /// [`Segments::scratch_length`](crate::Segments::scratch_length) words of any content, which ends all 0. Refused Size where the
    /// scratch has another length.
    pub fn examine(&self, scratch: &mut [u32]) -> Result<bool> {
        raw::examine(self.segments().count(), self.segment_size().kib(), self.memory(), scratch)
    }
}

#[cfg(test)]
mod tests {
    use super::*;

    #[test]
    fn numbers_off_the_tables_are_torn() {
        assert_eq!(Phase::unpack(5), Err(Refusal::Torn));
        assert_eq!(SegmentState::unpack(&[5, 12, 0, 0]), Err(Refusal::Torn));
        assert_eq!(SegmentState::unpack(&[2, 12, 0, 32]), Err(Refusal::Torn));
        assert!(States::of(&[0, 0, 0, 0, 0, 0, 5, 12, 0, 0, 0, 0], SegmentSize::Kib16).is_err());
        assert_eq!(SegmentRecord::unpack(&[]), Err(Refusal::Torn));
        assert_eq!(SegmentRecord::unpack(&[0, 0, 0, 0]), Err(Refusal::Torn));
    }

    /// Each state with class 12, four or eight blocks, of which two are in use.
    #[test]
    fn the_most_by_state() {
        for (size, free, all) in [(SegmentSize::Kib16, 2048, 4), (SegmentSize::Kib32, 4096, 8)] {
            for (tag, most, condemned) in [(0, free, 0), (1, all, 0), (2, all, 0), (3, all, 0), (4, 2, 1)] {
                let words = [tag, 12, 2, 0, 1, 1];
                let states = States::of(&words, size).unwrap();
                assert_eq!((states.blocks_in_use(), states.most_at_mark(), states.condemned()), (2, most, condemned));
            }
        }
    }

    /// Over words that no heap has no sum wraps, and a class that is none has no blocks; what was given is left out.
    #[test]
    fn sums_of_any_words() {
        let many = u32::MAX;
        let words = [4, many, many, many, many, many, 1, many, many, many, many, many, 0, many, many, many, many, many];
        let sums = |states: &States<'_>| (states.blocks_in_use(), states.most_at_mark(), states.condemned());
        for (size, all, left) in [(SegmentSize::Kib16, 8_589_936_638, 2048), (SegmentSize::Kib32, 8_589_938_686, 4096)] {
            let mut states = States::of(&words, size).unwrap();
            assert_eq!(sums(&states), (25_769_803_770, all, 1));
            states.next();
            assert_eq!(sums(&states), (17_179_869_180, left, 0));
        }
    }

    #[test]
    fn counts_of_any_size() {
        let record = SegmentRecord::unpack(&[3, 12, 4, 0, u32::MAX, u32::MAX]).unwrap();
        let state = SegmentState::Full { class: 12, place: 4 };
        assert_eq!(record, SegmentRecord { state, kept: u32::MAX, handed_out: u32::MAX });
        assert_eq!(record.in_use(), 8_589_934_590);
    }
}
