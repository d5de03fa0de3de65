//! The mutators: who is attached, inside or outside, their roots, and the acknowledgements they give in a handshake.

use core::ops::{Deref, DerefMut};

use crate::answers::{refuse, Answer, Refusal, MARK, SYNC1, SYNC2};
use crate::classes;
use crate::layout::{held_of, part_top, Heap, ACKNOWLEDGED, MUTATORS, MUTATOR_WORDS, PHASE, ROOTS, SIDE, STATE};
use crate::segments;

/// Sides.
pub const ABSENT: u32 = 0;
pub const INSIDE: u32 = 1;
pub const OUTSIDE: u32 = 2;

/// Where the mutator's words begin; refused 2.
#[inline(always)]
pub fn words_of(mutator: u32) -> Answer<usize> {
    if mutator >= MUTATORS {
        return refuse(Refusal::SCRIPT);
    }
    Ok(mutator as usize * MUTATOR_WORDS)
}

/// Refused 6 where a root's number is over 15. Given two numbers with their bits joined it answers for both.
#[inline(always)]
pub fn check_roots(joined: u32) -> Answer<()> {
    if joined >= ROOTS {
        return refuse(Refusal::SLOT);
    }
    Ok(())
}

#[inline(always)]
pub fn in_handshake(phase: u32) -> bool {
    phase == SYNC1 || phase == SYNC2
}

impl<M: Deref<Target = [u32]>> Heap<M> {
    #[inline(always)]
    pub fn phase(&self) -> Answer<u32> {
        self.word(PHASE)
    }

    /// Where the words of a mutator that is inside begin; refused 2, 4 and 5.
    #[inline(always)]
    pub fn inside(&self, mutator: u32) -> Answer<usize> {
        self.on_side(words_of(mutator)?, INSIDE)
    }

    #[inline(always)]
    fn on_side(&self, own: usize, side: u32) -> Answer<usize> {
        match self.word(own + SIDE)? {
            found if found == side => Ok(own),
            ABSENT => refuse(Refusal::ABSENT),
            _ => refuse(Refusal::SIDE),
        }
    }

    /// Refused 11 in a handshake.
    fn outside_handshake(&self) -> Answer<u32> {
        match self.phase()? {
            phase if in_handshake(phase) => refuse(Refusal::NOT_NOW),
            phase => Ok(phase),
        }
    }

    /// Where the words of a mutator not in use begin; refused 3.
    fn unused(&self, own: usize) -> Answer<()> {
        match self.word(own + SIDE)? {
            ABSENT => Ok(()),
            _ => refuse(Refusal::TAKEN),
        }
    }

    /// Does the mutator owe an acknowledgement in this phase? The first in the first handshake, the second in the second.
    #[inline(always)]
    pub fn owes(&self, own: usize, phase: u32) -> Answer<bool> {
        Ok(in_handshake(phase) && self.word(own + ACKNOWLEDGED)? < phase)
    }
}

impl<M: DerefMut<Target = [u32]>> Heap<M> {
    /// The mutator comes in, its first root given and the others nil. In mark it counts as having acknowledged twice.
    fn come_in(&mut self, own: usize, root0: u32, phase: u32) -> Answer<()> {
        self.empty(own)?;
        self.set(own, root0)?;
        self.set(own + SIDE, INSIDE)?;
        self.set(own + ACKNOWLEDGED, if phase == MARK { 2 } else { 0 })
    }

    /// An acknowledgement; the second enters the roots, in order, on the trace stack.
    pub fn acknowledge(&mut self, own: usize, phase: u32) -> Answer<()> {
        self.set(own + ACKNOWLEDGED, phase)?;
        if phase == SYNC2 {
            for root in own..own + ROOTS as usize {
                self.queue(self.word(root)?)?;
            }
        }
        Ok(())
    }

    fn acknowledge_if_owed(&mut self, own: usize) -> Answer<()> {
        let phase = self.phase()?;
        if self.owes(own, phase)? {
            self.acknowledge(own, phase)?;
        }
        Ok(())
    }

    /// The segments that the mutator holds become part, in class order, their places kept.
    fn release_segments(&mut self, own: usize) -> Answer<()> {
        for class in classes::LOWEST..=classes::HIGHEST {
            let descriptor = self.word(held_of(own, class))? as usize;
            if descriptor != 0 {
                self.set(descriptor + STATE, segments::PART)?;
                self.push(part_top(class), descriptor)?;
            }
        }
        Ok(())
    }
}

/// A mutator comes in, its roots nil.
#[inline]
pub fn attach(segments: u32, kib: u32, mem: &mut [u32], mutator: u32) -> Answer<()> {
    let mut heap = Heap::over(segments, kib, mem)?;
    let own = words_of(mutator)?;
    heap.unused(own)?;
    let phase = heap.outside_handshake()?;
    heap.come_in(own, 0, phase)
}

/// A mutator comes in, its first root a copy of one of the parent's.
#[inline]
pub fn spawn(segments: u32, kib: u32, mem: &mut [u32], mutator: u32, parent: u32, root: u32) -> Answer<()> {
    let mut heap = Heap::over(segments, kib, mem)?;
    let own = words_of(mutator)?;
    words_of(parent)?;
    heap.unused(own)?;
    let parent = heap.inside(parent)?;
    check_roots(root)?;
    let phase = heap.outside_handshake()?;
    let reference = heap.word(parent + root as usize)?;
    heap.come_in(own, reference, phase)
}

/// A mutator goes; its roots are emptied and its segments become part.
#[inline]
pub fn detach(segments: u32, kib: u32, mem: &mut [u32], mutator: u32) -> Answer<()> {
    let mut heap = Heap::over(segments, kib, mem)?;
    let own = heap.inside(mutator)?;
    heap.outside_handshake()?;
    heap.release_segments(own)?;
    heap.empty(own)
}

/// Gives the acknowledgement that the mutator owes, if it does.
#[inline]
pub fn check(segments: u32, kib: u32, mem: &mut [u32], mutator: u32) -> Answer<()> {
    let mut heap = Heap::over(segments, kib, mem)?;
    let own = heap.inside(mutator)?;
    heap.acknowledge_if_owed(own)
}

/// A check, then outside.
#[inline]
pub fn leave(segments: u32, kib: u32, mem: &mut [u32], mutator: u32) -> Answer<()> {
    let mut heap = Heap::over(segments, kib, mem)?;
    let own = heap.inside(mutator)?;
    heap.acknowledge_if_owed(own)?;
    heap.set(own + SIDE, OUTSIDE)
}

/// Inside again; an acknowledgement owed stays owed.
#[inline]
pub fn enter(segments: u32, kib: u32, mem: &mut [u32], mutator: u32) -> Answer<()> {
    let mut heap = Heap::over(segments, kib, mem)?;
    let own = words_of(mutator)?;
    heap.on_side(own, OUTSIDE)?;
    heap.set(own + SIDE, INSIDE)
}
