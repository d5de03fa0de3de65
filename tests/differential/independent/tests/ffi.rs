//! The exports: the same answers as the functions, packed as the C interface says, and no memory touched where the size is refused.

use std::ptr::{null, null_mut};

use independent::ffi::*;

#[test]
fn size_is_refused_before_memory_is_touched() {
    let right = [(1, 16, 7386), (2, 16, 13_732), (1, 32, 13_724)];
    let counts = [(0, 16, 0), (257, 16, 0), (1, 16, 0), (1, 16, 7385), (2, 16, 7386), (u32::MAX, 32, usize::MAX), (0, 32, 1040)];
    let sizes =
        right.into_iter().flat_map(|(segments, kib, length)| [0, 1, 15, 17, 48, 64, u32::MAX, 48 - kib].map(|other| (segments, other, length)));
    for (segments, kib, length) in counts.into_iter().chain(sizes) {
        unsafe {
            assert_eq!(independent_open(segments, kib, null_mut(), length), 1);
            assert_eq!(independent_make(segments, kib, null_mut(), length, 99, 99, 9999, 0), 1);
            assert_eq!(independent_step(segments, kib, null_mut(), length), 1);
            assert_eq!(independent_get(segments, kib, null(), length, 99, 99, 0), 1);
            assert_eq!(independent_phase(segments, kib, null(), length), 1);
            assert_eq!(independent_states(segments, kib, null(), length, null_mut(), 6), 1);
            assert_eq!(independent_sheet(segments, kib, null(), length, null_mut(), 52), 1);
            assert_eq!(independent_examine(segments, kib, null(), length, null_mut(), 2176), 1);
        }
    }
}

#[test]
fn lengths() {
    let lengths = |n, kib| {
        [independent_length(n, kib), independent_states_length(n, kib), independent_scratch_length(n, kib), independent_sheet_length(n, kib)]
    };
    assert_eq!(lengths(1, 16), [7386, 6, 2176, 52]);
    assert_eq!(lengths(1, 32), [13_724, 6, 4352, 52]);
    assert_eq!([lengths(0, 16), lengths(257, 32), lengths(1, 24), lengths(1, 0)], [[0; 4]; 4]);
}

/// Plays from an attach to a swept segment, with four records or eight.
#[test]
fn packed_answers() {
    for (kib, all) in [(16, 4), (32, 8)] {
        let mut mem = vec![77; independent_length(1, kib)];
        let (mem, length) = (mem.as_mut_ptr(), mem.len());
        let (mut states, mut scratch, mut sheet) = ([9; 6], vec![9; independent_scratch_length(1, kib)], [9; 52]);
        unsafe {
            assert_eq!(independent_open(1, kib, mem, length), 0);
            assert_eq!(independent_attach(1, kib, mem, length, 3), 0);
            for root in 0..all {
                assert_eq!(independent_make(1, kib, mem, length, 3, root, 1, 600), 0);
            }
            assert_eq!(independent_put(1, kib, mem, length, 3, 0, 599, u32::MAX), 0);
            assert_eq!(independent_get(1, kib, mem, length, 3, 0, 599), 0xffff_ffff_0000_0000);
            assert_eq!(independent_get(1, kib, mem, length, 3, 0, 600), 8);
            assert_eq!(independent_shape(1, kib, mem, length, 3, 0), (1 << 48) | (600 << 32));
            assert_eq!(independent_same(1, kib, mem, length, 3, 0, 0), 1 << 32);
            assert_eq!(independent_same(1, kib, mem, length, 3, 0, 1), 0);
            assert_eq!(independent_clear(1, kib, mem, length, 3, 1), 0);
            assert_eq!(independent_step(1, kib, mem, length), 0);
            assert_eq!(independent_start(1, kib, mem, length), 0);
            assert_eq!(independent_phase(1, kib, mem, length), 1 << 32);
            assert_eq!(independent_step(1, kib, mem, length), (1 << 40) | (1 << 32));
            assert_eq!(independent_leave(1, kib, mem, length, 3), 0);
            assert_eq!(independent_step(1, kib, mem, length), 2 << 32);
            assert_eq!(independent_step(1, kib, mem, length), 2 << 32);
            for _ in 1..all {
                assert_eq!(independent_step(1, kib, mem, length), 3 << 32);
            }
            assert_eq!(independent_step(1, kib, mem, length), 2 << 32);
            assert_eq!(independent_step(1, kib, mem, length), (1 << 48) | (4 << 32));
            assert_eq!(independent_step(1, kib, mem, length), 5 << 32);
            assert_eq!(independent_states(1, kib, mem, length, states.as_mut_ptr(), 4), 1);
            assert_eq!(independent_states(1, kib, mem, length, states.as_mut_ptr(), 6), 0);
            assert_eq!(states, [1, 12, 0, 0, all - 1, 0]);
            for other in [0, 6, 51, 53] {
                assert_eq!(independent_sheet(1, kib, mem, length, null_mut(), other), 1);
            }
            assert_eq!(independent_sheet(1, kib, mem, length, sheet.as_mut_ptr(), 52), 0);
            assert_eq!(independent_examine(1, kib, mem, length, scratch.as_mut_ptr(), scratch.len()), 1 << 32);
        }
        assert!(scratch.iter().all(|word| *word == 0));
        assert!(sheet.starts_with(["  0 12 P    3    1 #".as_bytes(), b"  0 12 P    7    1 #"][usize::from(kib == 32)]));
    }
}
