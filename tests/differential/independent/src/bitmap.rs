//! The bitmap tree of a segment: 64 words of level 0, at 32 KiB 128, one bit a block, and above them a summary of 128 bits, 1 exactly where
//! the word below is all ones. Bits past the end of either are 1. (Document 01's third level has no use where the second is one number.)

use crate::size::Size;

/// A bitmap tree that is read.
pub struct Tree<'a> {
    pub level0: &'a [u32],
    pub summary: u128,
}

/// The lowest free block after this one, where it is in the same word of level 0.
#[inline(always)]
pub fn next_in_word(word: u32, block: u32) -> Option<u32> {
    let used = word | (2_u32 << (block % 32)).wrapping_sub(1);
    match used {
        u32::MAX => None,
        used => Some((block / 32 * 32) | used.trailing_ones()),
    }
}

impl Tree<'_> {
    /// The lowest free block at or after the place, in a segment of so many blocks.
    #[inline]
    pub fn next_free(&self, blocks: u32, place: u32) -> Option<u32> {
        if place >= blocks {
            return None;
        }
        let index = place / 32;
        let word = self.level0.get(index as usize)? | !(u32::MAX << (place % 32));
        if word != u32::MAX {
            return Some(index * 32 + word.trailing_ones());
        }
        let above = match index {
            0..127 => self.summary | !(u128::MAX << (index + 1)),
            _ => return None,
        };
        lowest_free(self.level0, above)
    }
}

/// The lowest free block of the words whose bits are 0.
#[inline(always)]
pub fn lowest_free(level0: &[u32], summary: u128) -> Option<u32> {
    let index = summary.trailing_ones();
    Some(index * 32 + level0.get(index as usize)?.trailing_ones())
}

/// Words are taken by fours, so that a compiler may take four at once.
pub const FOUR: usize = 4;

/// By lane, a bit where the word is all ones.
#[inline(always)]
fn full_of(four: &[u32]) -> u64 {
    four.iter().enumerate().fold(0, |full, (lane, word)| full | u64::from(*word == u32::MAX) << lane)
}

/// The summary of a level 0 of the class.
#[inline]
pub fn summarize(level0: &[u32], size: Size, class: u32) -> u128 {
    let fours = level0.chunks_exact(FOUR).take(size.level_words(class).div_ceil(FOUR));
    let summary = fours.enumerate().fold(0, |summary, (index, four)| summary | u128::from(full_of(four)) << (index * FOUR % 128));
    summary | empty_summary(size, class)
}

/// What a sweep learns of the marks that it moves.
pub struct Moved {
    pub marked: u32,
    pub summary: u128,
}

/// Level 0 becomes the marks, given by fours, at most 128: their count, and the summary, by halves of 64 words.
#[inline(always)]
pub fn move_marks(level0: &mut [u32], marks: &[u32], size: Size, class: u32) -> Moved {
    let mut moved = Moved { marked: 0, summary: empty_summary(size, class) };
    for (half, (to, from)) in level0.chunks_mut(HALF).zip(marks.chunks(HALF)).enumerate() {
        let (marked, full) = move_half(to, from);
        moved.marked += marked;
        moved.summary |= u128::from(full) << (half * HALF % 128);
    }
    moved
}

/// So many words that a byte can count the ones of every fourth of them.
const HALF: usize = 64;

/// Counts are kept in the bytes of four words until the end.
#[inline(always)]
fn move_half(level0: &mut [u32], marks: &[u32]) -> (u32, u64) {
    let mut counts = [0; FOUR];
    let mut full = 0;
    for (index, (to, from)) in level0.chunks_exact_mut(FOUR).zip(marks.chunks_exact(FOUR)).enumerate() {
        to.copy_from_slice(from);
        full |= full_of(from) << (index * FOUR % 64);
        for (count, word) in counts.iter_mut().zip(from) {
            *count += ones_by_byte(*word);
        }
    }
    (sum_of_bytes(counts), full)
}

/// In each byte of the answer the count of ones of that byte.
#[inline(always)]
fn ones_by_byte(word: u32) -> u32 {
    let pairs = word - (word >> 1 & 0x5555_5555);
    let nibbles = (pairs & 0x3333_3333) + (pairs >> 2 & 0x3333_3333);
    (nibbles + (nibbles >> 4)) & 0x0f0f_0f0f
}

#[inline(always)]
fn sum_of_bytes(words: [u32; FOUR]) -> u32 {
    let halves: u32 = words.into_iter().map(|word| (word & 0x00ff_00ff) + (word >> 8 & 0x00ff_00ff)).sum();
    (halves & 0xffff) + (halves >> 16)
}

/// The summary of a segment of the class whose blocks' bits are all 0.
#[inline]
pub fn empty_summary(size: Size, class: u32) -> u128 {
    match size.level_words(class) {
        128.. => 0,
        words => u128::MAX << words,
    }
}

#[cfg(test)]
mod tests {
    use super::*;
    use crate::classes::{HIGHEST, LOWEST};

    const SIZES: [Size; 2] = [Size::KIB_16, Size::KIB_32];

    fn search(size: Size, class: u32, level0: &[u32], place: u32) -> Option<u32> {
        let summary = summarize(level0, size, class);
        Tree { level0, summary }.next_free(size.blocks(class), place)
    }

    fn scan(size: Size, class: u32, level0: &[u32], place: u32) -> Option<u32> {
        (place..size.blocks(class)).find(|block| level0[*block as usize / 32] >> (block % 32) & 1 == 0)
    }

    fn classes() -> impl Iterator<Item = (Size, u32)> {
        SIZES.into_iter().flat_map(|size| (LOWEST..=HIGHEST).map(move |class| (size, class)))
    }

    #[test]
    fn marks_are_moved() {
        for (size, class) in classes() {
            let words = size.level_words(class).max(FOUR);
            for factor in [0, 1, 0x9e37_79b9, 0xffff_fff1] {
                let marks: Vec<u32> = (0..words as u32).map(|index| if index % 5 == 0 { u32::MAX } else { index.wrapping_mul(factor) }).collect();
                let mut level0 = vec![7; size.bitmap_words()];
                let moved = move_marks(&mut level0, &marks, size, class);
                assert_eq!(level0[..words], marks);
                assert_eq!(moved.marked, marks.iter().map(|word| word.count_ones()).sum());
                assert_eq!(moved.summary, summarize(&level0, size, class));
            }
        }
        for size in SIZES {
            let all = vec![u32::MAX; size.bitmap_words()];
            assert_eq!(move_marks(&mut all.clone(), &all, size, LOWEST).marked as usize, size.most_blocks());
        }
    }

    fn empty(size: Size, class: u32) -> Vec<u32> {
        let mut level0 = vec![0; size.bitmap_words()];
        level0[0] = size.padding(class);
        level0
    }

    #[test]
    fn block_cases() {
        let [small, large] = SIZES;
        for (size, class) in [(small, 9), (large, 10)] {
            let mut level0 = empty(size, class);
            level0[0] = u32::MAX >> 1;
            assert_eq!(search(size, class, &level0, 0), Some(31));
            assert_eq!(search(size, class, &level0, 32), None);
            assert_eq!(search(size, class + 1, &empty(size, class + 1), 16), None);
        }
        for (size, class) in [(small, 13), (large, 14)] {
            for (place, block) in [(0, Some(0)), (1, Some(1)), (2, None)] {
                assert_eq!(search(size, class, &empty(size, class), place), block);
            }
        }
        assert_eq!(search(small, 14, &empty(small, 14), 0), Some(0));
        assert_eq!(search(small, 14, &empty(small, 14), 1), None);
    }

    /// The last block alone is free: from every place before it the search goes past all words between.
    #[test]
    fn the_last_block() {
        for (size, class) in classes() {
            let (mut level0, last) = (empty(size, class), size.blocks(class) - 1);
            level0[..size.level_words(class)].fill(u32::MAX);
            level0[last as usize / 32] ^= 1 << (last % 32);
            for place in 0..=last {
                assert_eq!(search(size, class, &level0, place), Some(last));
            }
            assert_eq!(search(size, class, &level0, last + 1), None);
        }
    }

    #[test]
    fn search_finds_what_a_plain_scan_finds() {
        let mut random = 1_u64;
        for round in 0..60 {
            for (size, class) in classes() {
                let mut level0 = empty(size, class);
                for word in &mut level0[..size.level_words(class)] {
                    random = random.wrapping_mul(6_364_136_223_846_793_005).wrapping_add(1);
                    let full = (random >> 60) < round % 17;
                    *word |= if full { u32::MAX } else { (random >> 20) as u32 };
                }
                for place in 0..=size.blocks(class) {
                    assert_eq!(search(size, class, &level0, place), scan(size, class, &level0, place));
                }
                for block in 0..size.blocks(class) {
                    let expected = scan(size, class, &level0, block + 1).filter(|next| next / 32 == block / 32);
                    assert_eq!(next_in_word(level0[block as usize / 32], block), expected);
                }
            }
        }
    }
}
