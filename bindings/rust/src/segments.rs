//! The count of segments, their size, and the lengths of the lent slices that follow from both.

use crate::refusal::Refusal;

/// The size of a segment, 16 or 32 KiB, the same for all segments of a heap. Each class has twice the blocks at 32 KiB.
///
/// Every call over a heap names the count and the size of its opening. Another one is refused [`Size`](Refusal::Size), as no memory has a
/// length of both sizes.
///
/// ```
/// use borvukhai::SegmentSize;
///
/// const SIZE: SegmentSize = SegmentSize::new(32).unwrap();
/// assert_eq!(SIZE, SegmentSize::Kib32);
/// assert_eq!(SegmentSize::new(64), None);
/// ```
#[derive(Clone, Copy, Debug, PartialEq, Eq, PartialOrd, Ord, Hash)]
pub enum SegmentSize {
    /// 16,384 bytes of records: 2,048 blocks of class 3, and one of class 14, so that a segment of that class is full from its first make.
    Kib16,
    /// 32,768 bytes of records: 4,096 blocks of class 3, and two of class 14.
    Kib32,
}

impl SegmentSize {
    /// Both, the smaller one first.
    pub const ALL: [SegmentSize; 2] = [SegmentSize::Kib16, SegmentSize::Kib32];

    /// A size in KiB, if it is 16 or 32.
    pub const fn new(kib: u32) -> Option<SegmentSize> {
        match kib {
            16 => Some(SegmentSize::Kib16),
            32 => Some(SegmentSize::Kib32),
            _ => None,
        }
    }

    /// The size in KiB.
    #[inline]
    pub const fn kib(self) -> u32 {
        match self {
            SegmentSize::Kib16 => 16,
            SegmentSize::Kib32 => 32,
        }
    }

    /// The blocks of a segment of a class, 3 to 14; 0 for a number that is no class.
    pub const fn blocks(self, class: u32) -> u32 {
        match class {
            LOWEST_CLASS..=14 => (1024 * self.kib()) >> class,
            _ => 0,
        }
    }

    /// The most blocks that a segment has, those of class 3: 2,048 or 4,096.
    pub const fn most_blocks(self) -> u32 {
        self.blocks(LOWEST_CLASS)
    }

    /// Words of a heap for each segment: its own, its bitmap, its marks, its entries of the trace stack, and those that every size has.
    const fn words(self) -> usize {
        match self {
            SegmentSize::Kib16 => 4096 + 67 + 64 + 2048 + STATE_WORDS + STACKS,
            SegmentSize::Kib32 => 8192 + 133 + 128 + 4096 + STATE_WORDS + STACKS,
        }
    }

    /// Words of the scratch for each segment: a stack entry and two bits for each block.
    const fn scratch_words(self) -> usize {
        let blocks = self.most_blocks() as usize;
        blocks + 2 * blocks / 32
    }
}

impl TryFrom<u32> for SegmentSize {
    type Error = Refusal;

    /// Refused [`Size`](Refusal::Size), as a call with this size is.
    fn try_from(kib: u32) -> Result<SegmentSize, Refusal> {
        SegmentSize::new(kib).ok_or(Refusal::Size)
    }
}

impl From<SegmentSize> for u32 {
    fn from(size: SegmentSize) -> u32 {
        size.kib()
    }
}

/// A count of segments, 1 to 256. With their [`SegmentSize`] it decides the lengths of all slices, in words of 32 bits, that of the sheet
/// in bytes.
///
/// The lengths are `const`, so that they size an array:
///
/// ```
/// use borvukhai::{SegmentSize, Segments};
///
/// const SEGMENTS: Segments = Segments::new(2).unwrap();
/// const SIZE: SegmentSize = SegmentSize::Kib16;
/// static MEMORY: [u32; SEGMENTS.length(SIZE)] = [0; SEGMENTS.length(SIZE)];
/// assert_eq!(MEMORY.len(), 13_641);
/// assert_eq!(SEGMENTS.length(SegmentSize::Kib32), 26_189);
/// ```
#[derive(Clone, Copy, Debug, PartialEq, Eq, PartialOrd, Ord, Hash)]
pub struct Segments(u16);

/// The class of the smallest blocks.
const LOWEST_CLASS: u32 = 3;
/// Stacks of segments: each has a count, and a word for each segment.
const STACKS: usize = 13;
/// Words of a heap that do not depend on the count: control, mutators' entries and the counts of the stacks.
const FIXED: usize = 16 + 32 * 32 + STACKS;
/// Words of a segment's record, which the output of states has too.
pub(crate) const STATE_WORDS: usize = 6;
/// Bytes of a line of the sheet, and the lines after which an empty one comes.
const LINE: usize = 52;
const LINES: usize = 60;

impl Segments {
    /// One segment.
    pub const MIN: Segments = Segments(1);
    /// 256 segments.
    pub const MAX: Segments = Segments(256);

    /// A count, if it is 1 to 256.
    pub const fn new(count: u32) -> Option<Segments> {
        match count {
            1..=256 => Some(Segments(count as u16)),
            _ => None,
        }
    }

    /// The most segments of a size whose heap fits in so many words, if one does. The slice that is lent is then the first
    /// [`length`](Segments::length) of those words.
    pub const fn fitting(words: usize, size: SegmentSize) -> Option<Segments> {
        if words < FIXED + size.words() {
            return None;
        }
        let count = (words - FIXED) / size.words();
        Some(if count > 256 { Segments::MAX } else { Segments(count as u16) })
    }

    /// The number itself.
    #[inline]
    pub const fn count(self) -> u32 {
        self.0 as u32
    }

    /// Words of the memory that a heap is lent: 6294 n + 1053 at 16 KiB, and 12568 n + 1053 at 32 KiB.
    pub const fn length(self, size: SegmentSize) -> usize {
        size.words() * self.0 as usize + FIXED
    }

    /// Words of the output of [`Heap::states`](crate::Heap::states): 6 n at either size.
    pub const fn states_length(self) -> usize {
        STATE_WORDS * self.0 as usize
    }

    /// Bytes of the output of [`Heap::sheet`](crate::Heap::sheet): 52 n + (n - 1) / 60 at either size.
    pub const fn sheet_length(self) -> usize {
        let count = self.0 as usize;
        LINE * count + (count - 1) / LINES
    }

    /// Words of the scratch of [`Heap::examine`](crate::Heap::examine): 2176 n at 16 KiB, and 4352 n at 32 KiB.
    pub const fn scratch_length(self, size: SegmentSize) -> usize {
        size.scratch_words() * self.0 as usize
    }
}

impl TryFrom<u32> for Segments {
    type Error = Refusal;

    /// Refused [`Size`](Refusal::Size), as a call with this count is.
    fn try_from(count: u32) -> Result<Segments, Refusal> {
        Segments::new(count).ok_or(Refusal::Size)
    }
}

impl From<Segments> for u32 {
    fn from(segments: Segments) -> u32 {
        segments.count()
    }
}
