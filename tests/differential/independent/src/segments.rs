//! The segments' states, the stacks on which free, part and condemned segments lie, and the block that a make takes.

use core::ops::{Deref, DerefMut};

use crate::answers::{Answer, Refusal};
use crate::bitmap::{self, Tree};
use crate::classes;
use crate::layout::{part_top, Heap, BLOCKS, CLASS, FREE_TOP, HANDED_OUT, HEAD_WORDS, KEPT, NEXT, NUMBER, PLACE, STATE, TIE};
use crate::size::Size;

/// States, as the look gives them.
pub const FREE: u32 = 0;
pub const PART: u32 = 1;
pub const HELD: u32 = 2;
pub const FULL: u32 = 3;
pub const CONDEMNED: u32 = 4;

/// The head of a descriptor.
pub type Head = [u32; HEAD_WORDS];

/// A summary of a bitmap's words; the bits of words that there are not are 1.
fn joined(words: &[u32]) -> u128 {
    words.iter().rev().fold(u128::MAX, |above, &word| above << 32 | u128::from(word))
}

fn write_summary(words: &mut [u32], summary: u128) {
    for (index, word) in words.iter_mut().enumerate() {
        *word = (summary >> (32 * index % 128)) as u32;
    }
}

impl<M: Deref<Target = [u32]>> Heap<M> {
    #[inline(always)]
    pub fn head(&self, descriptor: usize) -> Answer<&Head> {
        self.array(descriptor)
    }

    /// The bitmap tree of a descriptor.
    #[inline(always)]
    pub fn tree(&self, descriptor: usize) -> Answer<Tree<'_>> {
        let summary = joined(self.run(descriptor + HEAD_WORDS, self.size.summary_words())?);
        Ok(Tree { level0: self.run(descriptor + self.size.level0(), self.size.bitmap_words())?, summary })
    }

    /// The first word of the block that the next make of a held segment takes.
    #[inline(always)]
    pub fn next_block(&self, descriptor: usize, class: u32) -> Answer<usize> {
        let head = self.head(descriptor)?;
        Ok(BLOCKS + head[NUMBER] as usize * self.size.words() + classes::block_start(class, head[NEXT]) as usize)
    }
}

impl<M: DerefMut<Target = [u32]>> Heap<M> {
    /// Puts a segment on a stack.
    #[inline]
    pub fn push(&mut self, top: usize, descriptor: usize) -> Answer<()> {
        let below = self.word(top)?;
        self.set(descriptor + TIE, below)?;
        self.set(top, descriptor as u32)
    }

    /// Takes the last one put on a stack.
    #[inline]
    pub fn pop(&mut self, top: usize) -> Answer<Option<usize>> {
        let descriptor = self.word(top)? as usize;
        if descriptor == 0 {
            return Ok(None);
        }
        let below = self.word(descriptor + TIE)?;
        self.set(top, below)?;
        Ok(Some(descriptor))
    }

    /// A segment of the class that the mutator now holds: a part one, else a free one; refused 10. `held` is the mutator's word for it.
    #[inline(never)]
    pub fn take(&mut self, mutator: u32, held: usize, class: u32) -> Answer<usize> {
        let descriptor = match self.pop(part_top(class))? {
            Some(descriptor) => descriptor,
            None => {
                let descriptor = self.pop(FREE_TOP)?.ok_or(Refusal::NO_ROOM)?;
                self.empty_bitmap(descriptor, class)?;
                descriptor
            }
        };
        self.set(descriptor + STATE, HELD)?;
        self.set(descriptor + TIE, mutator)?;
        self.set(held, descriptor as u32)?;
        Ok(descriptor)
    }

    /// The block just taken is counted and the place moves just past it; where no free block remains the segment is full and no longer held.
    /// The one search is for the block that the next make takes.
    #[inline(always)]
    pub fn advance(&mut self, descriptor: usize, held: usize, class: u32) -> Answer<()> {
        let block = self.head(descriptor)?[NEXT];
        let index = block as usize / 32 % self.size.bitmap_words();
        let word = self.word(descriptor + self.size.level0() + index)?;
        let head: &mut Head = self.array_mut(descriptor)?;
        head[HANDED_OUT] = head[HANDED_OUT].wrapping_add(1);
        if let Some(next) = bitmap::next_in_word(word, block) {
            head[PLACE] = block.wrapping_add(1);
            head[NEXT] = next;
            return Ok(());
        }
        advance_further(self.segments, self.size, &mut self.mem, descriptor, held, class)
    }

    /// The free segment of a descriptor becomes one of the class whose blocks' bits are all 0, place 0.
    fn empty_bitmap(&mut self, descriptor: usize, class: u32) -> Answer<()> {
        let size = self.size;
        let head: &mut Head = self.array_mut(descriptor)?;
        (head[CLASS], head[PLACE], head[NEXT]) = (class, 0, 0);
        self.set_summary(descriptor, bitmap::empty_summary(size, class))?;
        self.run_mut(descriptor + size.level0(), size.bitmap_words())?.fill(0);
        self.set(descriptor + size.level0(), size.padding(class))
    }

    #[inline(always)]
    pub fn set_summary(&mut self, descriptor: usize, summary: u128) -> Answer<()> {
        write_summary(self.run_mut(descriptor + HEAD_WORDS, self.size.summary_words())?, summary);
        Ok(())
    }
}

/// The place where the next free block is in another word, if there is one.
#[inline(never)]
fn advance_further(segments: usize, size: Size, mem: &mut [u32], descriptor: usize, held: usize, class: u32) -> Answer<()> {
    let mut heap = Heap { mem, segments, size };
    let place = heap.head(descriptor)?[NEXT].wrapping_add(1);
    let next = heap.tree(descriptor)?.next_free(size.blocks(class), place);
    let head: &mut Head = heap.array_mut(descriptor)?;
    match next {
        Some(next) => {
            head[PLACE] = place;
            head[NEXT] = next;
            Ok(())
        }
        None => {
            fill_up(head, size, class);
            heap.set(held, 0)
        }
    }
}

/// The segment becomes full: its place is its number of blocks.
#[inline(always)]
pub fn fill_up(head: &mut Head, size: Size, class: u32) {
    head[STATE] = FULL;
    head[PLACE] = size.blocks(class);
    head[NEXT] = size.blocks(class);
    head[TIE] = 0;
}

/// A sweep has kept so many blocks, and none is handed out since.
#[inline(always)]
pub fn recount(head: &mut Head, kept: u32) {
    head[KEPT] = kept;
    head[HANDED_OUT] = 0;
}
