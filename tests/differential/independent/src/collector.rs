//! The cycle: start, and step in each phase.

use core::ops::DerefMut;

use crate::answers::{or_torn, refuse, Answer, Refusal, Step, IDLE, MARK, SWEEP, SYNC1, SYNC2};
use crate::bitmap::{self, Moved, FOUR};
use crate::classes;
use crate::layout::{
    part_top, Heap, ACKNOWLEDGED, CLASS, CONDEMNED_TOP, FREE_TOP, HANDED_OUT, HEAD_WORDS, KEPT, MUTATORS, MUTATOR_WORDS, NEXT, NUMBER, PHASE, PLACE,
    SIDE, STATE,
};
use crate::mutators::{ABSENT, OUTSIDE};
use crate::segments::{self, fill_up, recount, Head};
use crate::size::Size;

impl<M: DerefMut<Target = [u32]>> Heap<M> {
    /// Every full and every part segment is condemned, its place kept; they are stacked so that the lowest comes off first, and the part
    /// stacks are empty.
    fn condemn(&mut self) -> Answer<()> {
        for segment in (0..self.segments).rev() {
            let descriptor = self.descriptor(segment);
            if matches!(self.word(descriptor + STATE)?, segments::FULL | segments::PART) {
                self.set(descriptor + STATE, segments::CONDEMNED)?;
                self.push(CONDEMNED_TOP, descriptor)?;
            }
        }
        for class in classes::LOWEST..=classes::HIGHEST {
            self.set(part_top(class), 0)?;
        }
        Ok(())
    }

    /// A handshake: acknowledges for the mutators outside, and moves on when none inside owes.
    fn handshake(&mut self, phase: u32) -> Answer<Step> {
        let mut waiting = 0;
        for own in (0..MUTATORS as usize).map(|mutator| mutator * MUTATOR_WORDS) {
            let side = self.word(own + SIDE)?;
            if side == ABSENT || !self.owes(own, phase)? {
                continue;
            }
            if side == OUTSIDE {
                self.acknowledge(own, phase)?;
            } else {
                waiting += 1;
            }
        }
        if waiting != 0 {
            return Ok(Step::Waiting(waiting));
        }
        self.set(PHASE, phase + 1)?;
        Ok(Step::Moved)
    }

    /// Marking: one record, or the next phase.
    #[inline(always)]
    fn mark_step(&mut self) -> Answer<Step> {
        if self.trace()? {
            return Ok(Step::Traced);
        }
        self.set(PHASE, SWEEP)?;
        Ok(Step::Moved)
    }

    /// Sweeping: the lowest condemned segment, or the end of the cycle.
    fn sweep_step(&mut self) -> Answer<Step> {
        match self.pop(CONDEMNED_TOP)? {
            Some(descriptor) => self.sweep(descriptor),
            None => {
                self.set(PHASE, IDLE)?;
                Ok(Step::Done)
            }
        }
    }

    /// Level 0 of the segment becomes its marks, which are the blocks kept; it is then free, full or part. Its counts say how many blocks were in
    /// use.
    fn sweep(&mut self, descriptor: usize) -> Answer<Step> {
        let size = self.size;
        let words = self.run_mut(descriptor, size.descriptor_words())?;
        let (head, rest) = or_torn(words.split_first_chunk_mut::<HEAD_WORDS>())?;
        let (level0, marks) = or_torn(rest.split_at_mut_checked(size.marks() - HEAD_WORDS))?;
        let level0 = or_torn(level0.get_mut(size.summary_words()..))?;
        let (segment, class) = (head[NUMBER], head[CLASS]);
        let marks = or_torn(marks.get(..size.level_words(class).max(FOUR)))?;
        let (blocks, used) = (size.blocks(class), head[KEPT].wrapping_add(head[HANDED_OUT]));
        if marks.iter().fold(0, |any, word| any | word) == 0 {
            head[STATE] = segments::FREE;
            recount(head, 0);
            self.push(FREE_TOP, descriptor)?;
            return Ok(Step::Swept { segment, freed: used });
        }
        let Moved { marked, summary } = bitmap::move_marks(level0, marks, size, class);
        recount(head, marked);
        if let Some(first) = level0.first_mut() {
            *first |= size.padding(class);
        }
        if marked == blocks {
            fill_up(head, size, class);
            self.set_summary(descriptor, u128::MAX)?;
        } else {
            set_part(head, bitmap::lowest_free(level0, summary).unwrap_or(blocks));
            self.set_summary(descriptor, summary)?;
            self.push(part_top(class), descriptor)?;
        }
        Ok(Step::Swept { segment, freed: used.wrapping_sub(marked) })
    }
}

/// The segment becomes part, place 0, with its lowest free block.
#[inline(always)]
fn set_part(head: &mut Head, lowest: u32) {
    head[STATE] = segments::PART;
    head[PLACE] = 0;
    head[NEXT] = lowest;
}

/// A cycle begins: every full and every part segment is condemned, and with neither it is a cycle over nothing; refused 11 outside idle.
#[inline]
pub fn start(segments: u32, kib: u32, mem: &mut [u32]) -> Answer<()> {
    let mut heap = Heap::over(segments, kib, mem)?;
    if heap.phase()? != IDLE {
        return refuse(Refusal::NOT_NOW);
    }
    heap.condemn()?;
    heap.clear_marks()?;
    for own in (0..MUTATORS as usize).map(|mutator| mutator * MUTATOR_WORDS) {
        heap.set(own + ACKNOWLEDGED, 0)?;
    }
    heap.set(PHASE, SYNC1)
}

/// One small step of the collector.
#[inline]
pub fn step(segments: u32, kib: u32, mem: &mut [u32]) -> Answer<Step> {
    let mut heap = Heap::over(segments, kib, mem)?;
    if heap.phase()? == MARK {
        return heap.mark_step();
    }
    step_elsewhere(heap.segments, heap.size, heap.mem)
}

/// The same in the other phases.
#[inline(never)]
fn step_elsewhere(segments: usize, size: Size, mem: &mut [u32]) -> Answer<Step> {
    let mut heap = Heap { mem, segments, size };
    match heap.phase()? {
        IDLE => Ok(Step::Idle),
        SWEEP => heap.sweep_step(),
        phase @ (SYNC1 | SYNC2) => heap.handshake(phase),
        _ => refuse(Refusal::TORN),
    }
}
