//! Size classes 3 to 14: which class a record has, and where its blocks begin.

use crate::answers::{refuse, Answer, Refusal};

pub const LOWEST: u32 = 3;
pub const HIGHEST: u32 = 14;

/// The most pointers and values together.
pub const MOST_FIELDS: u64 = 4095;

/// The class by the count of pointers and values together.
static CLASS_OF: [u32; ENTRIES] = class_table();
const ENTRIES: usize = MOST_FIELDS as usize + 1;

/// The smallest class whose block of 2^c bytes holds the header and the fields.
const fn smallest(fields: u32) -> u32 {
    let mut class = LOWEST;
    while 1 << class < 4 * (1 + fields) {
        class += 1;
    }
    class
}

const fn class_table() -> [u32; ENTRIES] {
    let mut table = [0; ENTRIES];
    let mut fields = 0;
    while fields < ENTRIES {
        table[fields] = smallest(fields as u32);
        fields += 1;
    }
    table
}

/// The class of a record of so many fields; refused 9.
#[inline(always)]
pub fn class_of(fields: u64) -> Answer<u32> {
    match CLASS_OF.get(fields as usize) {
        Some(&class) if fields <= MOST_FIELDS => Ok(class),
        _ => refuse(Refusal::TOO_BIG),
    }
}

#[inline(always)]
pub fn is_class(class: u32) -> bool {
    (LOWEST..=HIGHEST).contains(&class)
}

/// The first word of a block of the class, from its segment's first.
#[inline(always)]
pub fn block_start(class: u32, block: u32) -> u32 {
    block.wrapping_shl(class) / 4
}

/// The block of the class in which a word lies, counted from its segment's first.
#[inline(always)]
pub fn block_at(class: u32, word: u32) -> u32 {
    (word * 4).wrapping_shr(class)
}

#[cfg(test)]
mod tests {
    use super::*;

    #[test]
    fn class_cases() {
        let cases = [(0, 3), (1, 3), (2, 4), (3, 4), (4, 5), (511, 11), (512, 12), (1023, 12), (1024, 13), (2047, 13), (2048, 14), (4095, 14)];
        for (fields, class) in cases {
            assert_eq!(class_of(fields), Ok(class), "{fields} fields");
        }
        assert_eq!(class_of(4096), Err(Refusal::TOO_BIG));
        assert_eq!(class_of(u64::from(u32::MAX) * 2), Err(Refusal::TOO_BIG));
    }
}
