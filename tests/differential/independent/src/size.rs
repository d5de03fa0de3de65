//! The size of a segment, 16 or 32 KiB (request No. 6), and what follows from it alone.

/// A segment of 2^`shift` words.
#[derive(Clone, Copy, Debug, PartialEq, Eq)]
pub struct Size {
    shift: u32,
}

impl Size {
    pub const KIB_16: Size = Size { shift: 12 };
    pub const KIB_32: Size = Size { shift: 13 };

    /// The size that a call names; no other number is one.
    #[inline(always)]
    pub const fn of(kib: u32) -> Option<Size> {
        match kib {
            16 => Some(Size::KIB_16),
            32 => Some(Size::KIB_32),
            _ => None,
        }
    }

    /// The words of a segment.
    #[inline(always)]
    pub const fn words(self) -> usize {
        1 << self.shift
    }

    /// The segment of a word of the blocks, counted from the first one's, and the word's place in it.
    #[inline(always)]
    pub const fn split(self, offset: u32) -> (usize, u32) {
        ((offset >> self.shift) as usize, offset & (self.words() as u32 - 1))
    }

    /// Most blocks of a segment: so many entries of the trace stack, and bits of a bitmap.
    #[inline(always)]
    pub const fn most_blocks(self) -> usize {
        self.words() / 2
    }

    #[inline(always)]
    pub const fn bitmap_words(self) -> usize {
        self.most_blocks() / 32
    }

    /// The words of a bitmap's summary, one bit for each of its words.
    #[inline(always)]
    pub const fn summary_words(self) -> usize {
        self.bitmap_words() / 32
    }

    /// The blocks of a segment of the class.
    #[inline(always)]
    pub const fn blocks(self, class: u32) -> u32 {
        (4_u32 << self.shift).wrapping_shr(class)
    }

    /// The words that level 0 of the class has.
    #[inline(always)]
    pub const fn level_words(self, class: u32) -> usize {
        self.blocks(class).div_ceil(32) as usize
    }

    /// The bits past the end of level 0's last word: 1 where they are.
    #[inline(always)]
    pub const fn padding(self, class: u32) -> u32 {
        match self.blocks(class) {
            blocks if blocks < 32 => u32::MAX << blocks,
            _ => 0,
        }
    }
}

#[cfg(test)]
mod tests {
    use super::*;
    use crate::classes::{HIGHEST, LOWEST};

    #[test]
    fn sizes() {
        for kib in (0..100).chain([16384, 32768, u32::MAX]) {
            let words = Size::of(kib).map(Size::words);
            assert_eq!(words, [(16, 4096), (32, 8192)].into_iter().find(|&(size, _)| size == kib).map(|(_, words)| words));
        }
    }

    #[test]
    fn blocks_by_class() {
        let blocks_of = [2048, 1024, 512, 256, 128, 64, 32, 16, 8, 4, 2, 1];
        for (class, expected) in (LOWEST..=HIGHEST).zip(blocks_of) {
            for (size, expected) in [(Size::KIB_16, expected), (Size::KIB_32, 2 * expected)] {
                assert_eq!(size.blocks(class), expected);
                assert_eq!(size.level_words(class), (expected as usize).max(32) / 32);
            }
        }
        assert_eq!([Size::KIB_16, Size::KIB_32].map(Size::most_blocks), [2048, 4096]);
        assert_eq!([Size::KIB_16, Size::KIB_32].map(Size::bitmap_words), [64, 128]);
    }

    #[test]
    fn words_of_segments() {
        assert_eq!(Size::KIB_16.split(3 * 4096 + 4095), (3, 4095));
        assert_eq!(Size::KIB_32.split(3 * 8192 + 4096), (3, 4096));
    }
}
