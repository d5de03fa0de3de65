//! The lengths: the constants of this crate, the functions of the library and the formulas of docs/LAYOUT.md are the same.

use borvukhai::{Refusal, SegmentSize, Segments, raw};

const NO_SIZES: [u32; 12] = [0, 1, 15, 17, 24, 31, 33, 48, 64, 16_384, 32_768, u32::MAX];

fn lengths_of(count: u32, kib: u32) -> [usize; 4] {
    match (Segments::new(count), SegmentSize::new(kib)) {
        (Some(segments), Some(size)) => {
            [segments.length(size), segments.states_length(), segments.scratch_length(size), segments.sheet_length()]
        }
        _ => [0; 4],
    }
}

#[test]
fn every_count_and_size_as_the_library_has_it() {
    for count in (0..=300).chain([65_536, 0x8000_0001, u32::MAX]) {
        for kib in (0..=70).chain(NO_SIZES) {
            let library = [raw::length, raw::states_length, raw::scratch_length, raw::sheet_length].map(|length| length(count, kib));
            assert_eq!(lengths_of(count, kib), library, "{count} of {kib} KiB");
        }
    }
}

#[test]
fn the_formulas() {
    for n in 1..=256 {
        let count = n as u32;
        let sheet = 52 * n + (n - 1) / 60;
        assert_eq!(lengths_of(count, 16), [6294 * n + 1053, 6 * n, 2176 * n, sheet]);
        assert_eq!(lengths_of(count, 32), [12_568 * n + 1053, 6 * n, 4352 * n, sheet]);
        assert_eq!(Segments::try_from(count).map(u32::from), Ok(count));
    }
}

#[test]
fn the_bytes_of_a_sheet() {
    let counts = [1, 60, 61, 120, 121, 256];
    assert_eq!(counts.map(|count| Segments::new(count).unwrap().sheet_length()), [52, 3120, 3173, 6241, 6294, 13_316]);
}

/// No heap of one size has the length of one of the other, whatever their counts.
#[test]
fn the_lengths_never_meet() {
    let small: Vec<usize> = (1..=256).map(|count| lengths_of(count, 16)[0]).collect();
    assert!((1..=256).all(|count| !small.contains(&lengths_of(count, 32)[0])));
}

#[test]
fn other_counts_and_sizes_are_none() {
    for count in [0, 257, u32::MAX] {
        assert_eq!(Segments::new(count), None);
        assert_eq!(Segments::try_from(count), Err(Refusal::Size));
    }
    for kib in NO_SIZES {
        assert_eq!(SegmentSize::new(kib), None);
        assert_eq!(SegmentSize::try_from(kib), Err(Refusal::Size));
    }
}

#[test]
fn the_sizes() {
    assert_eq!(SegmentSize::ALL.map(u32::from), [16, 32]);
    assert_eq!(SegmentSize::ALL.map(|size| SegmentSize::try_from(size.kib())), SegmentSize::ALL.map(Ok));
    assert_eq!(SegmentSize::ALL.map(SegmentSize::most_blocks), [2048, 4096]);
    for class in (0..=2).chain(15..=70).chain([u32::MAX]) {
        assert_eq!(SegmentSize::ALL.map(|size| size.blocks(class)), [0, 0]);
    }
}

#[test]
fn the_most_segments_that_fit() {
    for (size, per_segment) in [(SegmentSize::Kib16, 6294), (SegmentSize::Kib32, 12_568)] {
        assert_eq!(Segments::fitting(0, size), None);
        assert_eq!(Segments::fitting(Segments::MIN.length(size) - 1, size), None);
        for n in 1..=256 {
            let segments = Segments::new(n).unwrap();
            assert_eq!(Segments::fitting(segments.length(size), size), Some(segments));
            assert_eq!(Segments::fitting(segments.length(size) + per_segment - 1, size), Some(segments));
        }
        assert_eq!(Segments::fitting(usize::MAX, size), Some(Segments::MAX));
    }
}
