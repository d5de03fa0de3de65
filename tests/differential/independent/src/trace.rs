//! The trace stack, the queued bits and the mark bitmaps.
//!
//! A queued bit stands for the 8 bytes at which a record begins, so that entering needs no size class; it is set when the record is
//! entered or born marked, and stays until the next start. Mark bits are by block, as the sweep wants them.

use core::ops::{Deref, DerefMut};

use crate::answers::{or_torn, Answer};
use crate::classes;
use crate::layout::{Heap, BLOCKS, CLASS, TRACE_HEIGHT};

/// A word of a bitmap and the one bit in it.
#[derive(Clone, Copy)]
pub struct Bit {
    pub at: usize,
    pub mask: u32,
}

impl<M: Deref<Target = [u32]>> Heap<M> {
    /// The queued bit of a record.
    #[inline(always)]
    pub fn queued_bit(&self, reference: u32) -> Bit {
        let offset = reference.wrapping_sub(BLOCKS as u32);
        Bit { at: self.queued_bits() + (offset / 64) as usize, mask: 1 << (offset / 2 % 32) }
    }

    /// The mark bit of a record.
    #[inline(always)]
    pub fn mark_bit(&self, reference: u32) -> Answer<Bit> {
        let offset = reference.wrapping_sub(BLOCKS as u32);
        let (segment, within) = self.size.split(offset);
        let descriptor = self.descriptor(segment);
        let class = self.word(descriptor + CLASS)?;
        let block = classes::block_at(class, within);
        Ok(Bit { at: descriptor + self.size.marks() + (block / 32) as usize, mask: 1 << (block % 32) })
    }
}

impl<M: DerefMut<Target = [u32]>> Heap<M> {
    /// Enters one reference on the trace stack.
    #[inline(always)]
    pub fn queue(&mut self, reference: u32) -> Answer<()> {
        let mut height = self.word(TRACE_HEIGHT)? as usize;
        let from = self.queued_bits();
        queue_in(or_torn(self.mem.get_mut(from..))?, reference, &mut height)?;
        self.set(TRACE_HEIGHT, height as u32)
    }

    #[inline(always)]
    pub fn mark(&mut self, reference: u32) -> Answer<()> {
        let bit = self.mark_bit(reference)?;
        *self.word_mut(bit.at)? |= bit.mask;
        Ok(())
    }

    /// Marks a record just made: it is never traced.
    #[inline(always)]
    pub fn mark_at_birth(&mut self, reference: u32) -> Answer<()> {
        let bit = self.queued_bit(reference);
        *self.word_mut(bit.at)? |= bit.mask;
        self.mark(reference)
    }

    /// Takes the last entered record, marks it and enters its pointers in order. Was there one?
    #[inline(always)]
    pub fn trace(&mut self) -> Answer<bool> {
        let mut height = self.word(TRACE_HEIGHT)? as usize;
        if height == 0 {
            return Ok(false);
        }
        let reference = self.word(self.trace_top(height))?;
        height -= 1;
        self.mark(reference)?;
        let pointers = (self.word(reference as usize)? >> 16) as usize;
        let first = reference as usize + 1;
        let from = self.queued_bits();
        let (blocks, rest) = or_torn(self.mem.split_at_mut_checked(from))?;
        for reference in or_torn(blocks.get(first..first.wrapping_add(pointers)))? {
            queue_in(rest, *reference, &mut height)?;
        }
        self.set(TRACE_HEIGHT, height as u32)?;
        Ok(true)
    }

    /// No mark, and nothing queued.
    pub fn clear_marks(&mut self) -> Answer<()> {
        let (queued, words) = (self.queued_bits(), self.size.bitmap_words());
        self.run_mut(queued, words * self.segments)?.fill(0);
        for segment in 0..self.segments {
            let marks = self.descriptor(segment) + self.size.marks();
            self.run_mut(marks, words)?.fill(0);
        }
        Ok(())
    }
}

/// Enters a reference at this height of the trace stack, with which `rest` ends; the queued bits begin it. Nothing is entered for nil, a
/// marked record or one that is on the stack.
#[inline(always)]
fn queue_in(rest: &mut [u32], reference: u32, height: &mut usize) -> Answer<()> {
    if reference == 0 {
        return Ok(());
    }
    let offset = reference.wrapping_sub(BLOCKS as u32);
    let mask = 1 << (offset / 2 % 32);
    let word = or_torn(rest.get_mut((offset / 64) as usize))?;
    if *word & mask != 0 {
        return Ok(());
    }
    *word |= mask;
    *height += 1;
    let top = rest.len().wrapping_sub(*height);
    *or_torn(rest.get_mut(top))? = reference;
    Ok(())
}
