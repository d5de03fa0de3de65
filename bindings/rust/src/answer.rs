//! Answers of the C interface taken apart. Every answer of the library has a meaning here, which is proved of it; a number without one
//! is read as [`Refusal::Torn`], so that no answer is undefined and none panics.

use crate::refusal::{Refusal, Result};

/// An answer of 32 bits: 0, or a refusal.
#[inline]
pub fn plain(answer: u32) -> Result<()> {
    match answer {
        0 => Ok(()),
        number => Err(Refusal::from_number(number).unwrap_or(Refusal::Torn)),
    }
}

/// An answer of 64 bits: a result above a refusal.
#[inline]
pub fn result(answer: u64) -> Result<u32> {
    let value = (answer >> 32) as u32;
    match plain(answer as u32) {
        Ok(()) => Ok(value),
        Err(refusal) if value == 0 => Err(refusal),
        Err(_) => Err(Refusal::Torn),
    }
}

/// An answer of 64 bits whose result is 0 or 1.
#[inline]
pub fn truth(answer: u64) -> Result<bool> {
    match result(answer)? {
        0 => Ok(false),
        1 => Ok(true),
        _ => Err(Refusal::Torn),
    }
}

#[cfg(test)]
mod tests {
    use super::*;

    #[test]
    fn every_refusal_of_the_table() {
        assert_eq!(plain(0), Ok(()));
        for refusal in Refusal::ALL {
            assert_eq!(plain(refusal.number()), Err(refusal));
            assert_eq!(result(refusal.number().into()), Err(refusal));
            assert_eq!(truth(refusal.number().into()), Err(refusal));
        }
    }

    #[test]
    fn a_number_that_no_call_gives_is_torn() {
        for number in [12, 14, 255, u32::MAX] {
            assert_eq!(plain(number), Err(Refusal::Torn));
            assert_eq!(result(number.into()), Err(Refusal::Torn));
        }
        assert_eq!(truth(2 << 32), Err(Refusal::Torn));
        assert_eq!(result(1 << 32 | 7), Err(Refusal::Torn));
    }

    #[test]
    fn results() {
        assert_eq!(result(0), Ok(0));
        assert_eq!(result(u64::MAX << 32), Ok(u32::MAX));
        assert_eq!((truth(0), truth(1 << 32)), (Ok(false), Ok(true)));
    }
}
