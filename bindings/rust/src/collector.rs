//! The collector's calls: start, step, and a cycle run to its end.

use crate::heap::Heap;
use crate::numbers::MutatorId;
use crate::raw;
use crate::refusal::{Refusal, Result};

/// What a step did.
#[derive(Clone, Copy, Debug, PartialEq, Eq, Hash)]
pub enum Step {
    /// Nothing: no cycle runs.
    Idle,
    /// A handshake waits for so many mutators that are inside: each of them must check or leave.
    Waiting(u32),
    /// The next phase.
    Moved,
    /// One record was marked.
    Traced,
    /// One segment of the collect set was swept.
    Swept {
        /// Its number.
        segment: u32,
        /// How many blocks in use became free.
        freed: u32,
    },
    /// The cycle has ended.
    Done,
}

impl Step {
    /// The upper 32 bits of the answer of step.
    pub(crate) const fn unpack(bits: u32) -> Result<Step> {
        match (bits & 0xff, bits >> 8 & 0xff, bits >> 16) {
            (0, 0, 0) => Ok(Step::Idle),
            (1, waiting, 0) => Ok(Step::Waiting(waiting)),
            (2, 0, 0) => Ok(Step::Moved),
            (3, 0, 0) => Ok(Step::Traced),
            (4, segment, freed) => Ok(Step::Swept { segment, freed }),
            (5, 0, 0) => Ok(Step::Done),
            _ => Err(Refusal::Torn),
        }
    }
}

/// How long a cycle can be: the far end of a bar that shows its progress, B + C + 4.
///
/// After a start that is not refused, over memory that passes the examination and with no opening since, the steps that
/// are neither refused nor answered [`Step::Waiting`], up to and including [`Step::Done`], are at most B + C + 4: B is
/// the number of blocks in use when the phase became mark ([`States::blocks_in_use`](crate::States::blocks_in_use) of a
/// look just after the second step that answers [`Step::Moved`]), C the number of segments that the start condemned
/// ([`States::condemned`](crate::States::condemned) of a look after it). Until mark B is not known: it will be the
/// blocks in use now and one for each make that is not refused meanwhile, and no more than
/// [`States::most_at_mark`](crate::States::most_at_mark). Over memory that fails the examination this bounds nothing.
///
/// ```
/// use borvukhai::{Heap, MutatorId, Phase, Root, SegmentSize, Segments, Shape, Step, cycle_end};
///
/// const SEGMENTS: Segments = Segments::new(2).unwrap();
/// const SIZE: SegmentSize = SegmentSize::Kib16;
/// const ID: MutatorId = MutatorId::new(0).unwrap();
///
/// let mut heap = Heap::open(SEGMENTS, SIZE, [0; SEGMENTS.length(SIZE)])?;
/// let mut mutator = heap.attach(ID)?;
/// for root in [Root::R0, Root::R1, Root::R2, Root::R2] {
///     mutator.make(root, Shape::new(1, 600))?; // four fill a segment; the third is dead
/// }
///
/// let mut output = [0; SEGMENTS.states_length()];
/// heap.start()?;
/// let look = heap.states(&mut output)?;
/// let condemned = look.condemned();
/// let mut end = cycle_end(look.most_at_mark(), condemned);
/// assert_eq!(end, 4 + 2048 + 1 + 4); // the other segment is free, and may still be taken
///
/// let mut steps = 0;
/// loop {
///     let step = heap.step()?;
///     match step {
///         Step::Waiting(_) => heap.mutator(ID).check()?,
///         _ => steps += 1,
///     }
///     if step == Step::Moved && heap.phase()? == Phase::Mark {
///         end = cycle_end(heap.states(&mut output)?.blocks_in_use(), condemned);
///         assert_eq!(end, 4 + 1 + 4);
///     }
///     if step == Step::Done {
///         break;
///     }
/// }
/// assert_eq!(steps, 8);
/// # Ok::<(), borvukhai::Refusal>(())
/// ```
pub const fn cycle_end(blocks: u64, condemned: u32) -> u64 {
    blocks.saturating_add(condemned as u64 + 4)
}

impl<M: AsRef<[u32]> + AsMut<[u32]>> Heap<M> {
    /// A cycle begins: every full and every part segment is condemned, and no make takes it before its sweep; held ones
    /// are not. Where none is full or part it is a cycle over no segment: both handshakes and the marking are held as
    /// usual, the first step in sweep answers [`Step::Done`], and nothing is freed. Refused NotNow while a cycle runs.
    pub fn start(&mut self) -> Result<()> {
        raw::start(self.segments().count(), self.segment_size().kib(), self.words())
    }

    /// One small step of the collector, to be called between the mutators' calls. Where no cycle runs it does nothing. Refused Torn,
    /// over memory that fails the examination only.
    ///
    /// A cycle needs the mutators: while a step answers [`Step::Waiting`], each mutator that is inside must
    /// [`check`](crate::Mutator::check) or [`leave`](crate::Mutator::leave).
    pub fn step(&mut self) -> Result<Step> {
        raw::step(self.segments().count(), self.segment_size().kib(), self.words())
    }

    /// The cycle that runs, to its end, in this one call; the answer is how many blocks became free in it, not counting those of segments
    /// that were swept before. Where no cycle runs it does nothing, and the answer is 0.
    ///
    /// This is the pause that steps avoid: for moments when time does not matter, or when no room is left. Where a
    /// handshake waits, it checks for every mutator that is inside; as the heap is borrowed, none of them is within a call.
    ///
    /// For n segments it takes at most 2049 n + 6 steps at 16 KiB and 4097 n + 6 at 32 KiB: the B + C + 4 of [`cycle_end`], with at most
    /// 2048 or 4096 blocks in each segment and n segments condemned, and in each handshake one that waits. Over memory that fails the
    /// examination more might be wanted; then it is refused Torn after so many.
    ///
    /// ```
    /// use borvukhai::{Heap, MutatorId, Refusal, Root, SegmentSize, Segments, Shape};
    ///
    /// let mut heap = Heap::new(Segments::MIN, SegmentSize::Kib16);
    /// let mut mutator = heap.attach(MutatorId::new(0).unwrap())?;
    /// for _ in 0..4 {
    ///     mutator.make(Root::R0, Shape::new(1, 600))?;
    /// }
    /// assert_eq!(mutator.make(Root::R0, Shape::new(1, 600)), Err(Refusal::NoRoom));
    /// heap.start()?;
    /// assert_eq!(heap.finish_cycle()?, 3);
    /// # Ok::<(), Refusal>(())
    /// ```
    pub fn finish_cycle(&mut self) -> Result<u32> {
        let mut total: u32 = 0;
        for _ in 0..self.most_steps() {
            match self.step()? {
                Step::Waiting(_) => self.check_all()?,
                Step::Swept { freed, .. } => total = total.saturating_add(freed),
                Step::Moved | Step::Traced => {}
                Step::Done | Step::Idle => return Ok(total),
            }
        }
        Err(Refusal::Torn)
    }

    /// The steps that a whole cycle takes at most, where every mutator checks whenever one waits.
    pub(crate) fn most_steps(&self) -> u32 {
        (self.segment_size().most_blocks() + 1) * self.segments().count() + 6
    }

    /// A check for each mutator that is inside.
    pub(crate) fn check_all(&mut self) -> Result<()> {
        for id in MutatorId::all() {
            match self.mutator(id).check() {
                Ok(()) | Err(Refusal::Absent | Refusal::Side) => {}
                Err(refusal) => return Err(refusal),
            }
        }
        Ok(())
    }
}

#[cfg(test)]
mod tests {
    use super::*;

    #[test]
    fn every_kind_of_step() {
        assert_eq!(Step::unpack(0), Ok(Step::Idle));
        assert_eq!(Step::unpack(32 << 8 | 1), Ok(Step::Waiting(32)));
        assert_eq!(Step::unpack(2), Ok(Step::Moved));
        assert_eq!(Step::unpack(3), Ok(Step::Traced));
        assert_eq!(Step::unpack(4096 << 16 | 255 << 8 | 4), Ok(Step::Swept { segment: 255, freed: 4096 }));
        assert_eq!(Step::unpack(5), Ok(Step::Done));
    }

    #[test]
    fn a_kind_off_the_table_is_torn() {
        for kind in 6..=255 {
            assert_eq!(Step::unpack(kind), Err(Refusal::Torn));
        }
        for more in [0x100, 0x1_0001, 0x102, 0x1_0002, 0x103, 0x105] {
            assert_eq!(Step::unpack(more), Err(Refusal::Torn));
        }
    }
}
