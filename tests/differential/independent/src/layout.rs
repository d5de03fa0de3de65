//! Where everything lies in the lent slice, the lengths, and `Heap`: the slice once its length is known to be right.
//!
//! First the mutators, 32 words each, then the control words, then the segments' blocks, so that a reference is the index of its header
//! in the slice and 0 is nil. After the blocks: the queued bits and the segments' descriptors. The trace stack grows down from the end. How
//! many words each segment has of all this follows from its size.

use core::ops::{Deref, DerefMut};

use crate::answers::{or_torn, refuse, Answer, Refusal, IDLE};
use crate::segments;
use crate::size::Size;

pub const MOST_SEGMENTS: u32 = 256;

/// A mutator: 16 roots, its side, its acknowledgements, and by class the descriptor of the segment that it holds (0: none).
pub const MUTATORS: u32 = 32;
pub const ROOTS: u32 = 16;
pub const MUTATOR_WORDS: usize = 32;
pub const SIDE: usize = 16;
pub const ACKNOWLEDGED: usize = 17;
const HELD_BY_CLASS: usize = 16;

/// The control words. Each stack of segments is named by the descriptor on its top, 0 where it is empty; the part stacks by their class.
pub const PHASE: usize = 1024;
pub const TRACE_HEIGHT: usize = 1025;
pub const FREE_TOP: usize = 1026;
const PART_BY_CLASS: usize = 1024;
pub const CONDEMNED_TOP: usize = 1039;

/// The first block of segment 0.
pub const BLOCKS: usize = 1040;

/// A descriptor: the words of its head, then the summary of the bitmap tree, the lower words first, then the tree's level 0, then the mark
/// bitmap. The tie is the mutator that holds the segment, or the descriptor below it on its stack. The counts are of the blocks kept at the
/// last sweep and of those handed out since.
pub const HEAD_WORDS: usize = 8;
pub const STATE: usize = 0;
pub const CLASS: usize = 1;
pub const PLACE: usize = 2;
pub const NEXT: usize = 3;
pub const TIE: usize = 4;
pub const NUMBER: usize = 5;
pub const KEPT: usize = 6;
pub const HANDED_OUT: usize = 7;

/// Where the parts of a descriptor behind its head begin, and its end.
impl Size {
    #[inline(always)]
    pub const fn level0(self) -> usize {
        HEAD_WORDS + self.summary_words()
    }

    #[inline(always)]
    pub const fn marks(self) -> usize {
        self.level0() + self.bitmap_words()
    }

    #[inline(always)]
    pub const fn descriptor_words(self) -> usize {
        self.marks() + self.bitmap_words()
    }

    /// The words of the lent slice for each segment.
    #[inline(always)]
    const fn lent_words(self) -> usize {
        self.words() + self.bitmap_words() + self.descriptor_words() + self.most_blocks()
    }
}

/// The words that the look at the states gives of a segment: state, class, place, mutator, and the two counts.
pub const STATE_WORDS: usize = 6;

/// The bytes of a line of the sheet, its line feed among them, and of 60 lines with the line feed that parts them from the next ones.
pub const SHEET_LINE: usize = 52;
pub const SHEET_PAGE: usize = SHEET_LINES * SHEET_LINE + 1;
const SHEET_LINES: usize = 60;

/// The word of a mutator that names the segment which it holds of a class.
#[inline(always)]
pub const fn held_of(own: usize, class: u32) -> usize {
    own + HELD_BY_CLASS + (class & 15) as usize
}

/// The size, where the count is one too.
#[inline(always)]
const fn size_of(segments: u32, kib: u32) -> Option<Size> {
    if segments.wrapping_sub(1) < MOST_SEGMENTS {
        Size::of(kib)
    } else {
        None
    }
}

/// The control word of the part stack of a class.
#[inline(always)]
pub const fn part_top(class: u32) -> usize {
    PART_BY_CLASS + (class & 15) as usize
}

/// Is this the length of the lent slice for the count and the size?
#[inline(always)]
pub const fn fits(segments: u32, kib: u32, length: usize) -> bool {
    match size_of(segments, kib) {
        Some(size) => length == size.lent_words() * segments as usize + BLOCKS,
        None => false,
    }
}

/// The words of the lent slice: 6346 n + 1040 at 16 KiB, 12684 n + 1040 at 32, or 0 for a count not 1 to 256 or another size.
#[inline(always)]
pub const fn length(segments: u32, kib: u32) -> usize {
    match size_of(segments, kib) {
        Some(size) => size.lent_words() * segments as usize + BLOCKS,
        None => 0,
    }
}

/// The words of the look at the segments' states: 6 n, or 0.
#[inline(always)]
pub const fn states_length(segments: u32, kib: u32) -> usize {
    match size_of(segments, kib) {
        Some(_) => STATE_WORDS * segments as usize,
        None => 0,
    }
}

/// The words of the examination's scratch: 2176 n at 16 KiB, 4352 n at 32, or 0. A list of records, and two bitmaps.
#[inline(always)]
pub const fn scratch_length(segments: u32, kib: u32) -> usize {
    match size_of(segments, kib) {
        Some(size) => (size.most_blocks() + 2 * size.bitmap_words()) * segments as usize,
        None => 0,
    }
}

/// The bytes of the sheet: 52 n, and 1 after each 60 lines where another comes; or 0.
#[inline(always)]
pub const fn sheet_length(segments: u32, kib: u32) -> usize {
    match size_of(segments, kib) {
        Some(_) => SHEET_LINE * segments as usize + (segments as usize - 1) / SHEET_LINES,
        None => 0,
    }
}

/// The lent slice with its segment count and size, its length right.
pub struct Heap<M> {
    pub mem: M,
    pub segments: usize,
    pub size: Size,
}

impl<M: Deref<Target = [u32]>> Heap<M> {
    /// Refused 1 where the count, the size or the length is wrong.
    #[inline(always)]
    pub fn over(segments: u32, kib: u32, mem: M) -> Answer<Heap<M>> {
        match size_of(segments, kib) {
            Some(size) if fits(segments, kib, mem.len()) => Ok(Heap { mem, segments: segments as usize, size }),
            _ => refuse(Refusal::SIZE),
        }
    }

    #[inline(always)]
    pub fn word(&self, at: usize) -> Answer<u32> {
        or_torn(self.mem.get(at).copied())
    }

    #[inline(always)]
    pub fn array<const N: usize>(&self, at: usize) -> Answer<&[u32; N]> {
        let words = or_torn(self.mem.get(at..at.wrapping_add(N)))?;
        or_torn(words.first_chunk())
    }

    /// So many words.
    #[inline(always)]
    pub fn run(&self, at: usize, length: usize) -> Answer<&[u32]> {
        or_torn(self.mem.get(at..at.wrapping_add(length)))
    }

    #[inline(always)]
    pub fn queued_bits(&self) -> usize {
        BLOCKS + self.size.words() * self.segments
    }

    #[inline(always)]
    pub fn descriptors(&self) -> usize {
        BLOCKS + (self.size.words() + self.size.bitmap_words()) * self.segments
    }

    #[inline(always)]
    pub fn descriptor(&self, segment: usize) -> usize {
        self.descriptors() + self.size.descriptor_words() * segment
    }

    /// The word of the trace stack that is its top at this height, which is not 0.
    #[inline(always)]
    pub fn trace_top(&self, height: usize) -> usize {
        self.mem.len().wrapping_sub(height)
    }
}

impl<M: DerefMut<Target = [u32]>> Heap<M> {
    #[inline(always)]
    pub fn set(&mut self, at: usize, word: u32) -> Answer<()> {
        *self.word_mut(at)? = word;
        Ok(())
    }

    #[inline(always)]
    pub fn word_mut(&mut self, at: usize) -> Answer<&mut u32> {
        or_torn(self.mem.get_mut(at))
    }

    #[inline(always)]
    pub fn array_mut<const N: usize>(&mut self, at: usize) -> Answer<&mut [u32; N]> {
        let words = or_torn(self.mem.get_mut(at..at.wrapping_add(N)))?;
        or_torn(words.first_chunk_mut())
    }

    #[inline(always)]
    pub fn run_mut(&mut self, at: usize, length: usize) -> Answer<&mut [u32]> {
        or_torn(self.mem.get_mut(at..at.wrapping_add(length)))
    }

    /// The words of a mutator, or as many others, become 0.
    #[inline(always)]
    pub fn empty(&mut self, at: usize) -> Answer<()> {
        *self.array_mut(at)? = [0; MUTATOR_WORDS];
        Ok(())
    }
}

/// An empty heap in memory of any content; refused 1 only. Blocks, bitmaps and the trace stack are written before they are read.
pub fn open(segments: u32, kib: u32, mem: &mut [u32]) -> Answer<()> {
    let mut heap = Heap::over(segments, kib, mem)?;
    for mutator in 0..MUTATORS as usize {
        heap.empty(mutator * MUTATOR_WORDS)?;
    }
    *heap.array_mut(PHASE)? = [0; BLOCKS - PHASE];
    heap.set(PHASE, IDLE)?;
    for segment in (0..heap.segments).rev() {
        let descriptor = heap.descriptor(segment);
        heap.set(descriptor + NUMBER, segment as u32)?;
        heap.set(descriptor + STATE, segments::FREE)?;
        heap.set(descriptor + KEPT, 0)?;
        heap.set(descriptor + HANDED_OUT, 0)?;
        heap.push(FREE_TOP, descriptor)?;
    }
    Ok(())
}
