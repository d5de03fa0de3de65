//! What include/borvukhai.h and this crate both say: the version, the layout's number, the words of a segment's record, a line of the
//! sheet, and the classes of records.

mod common;

use borvukhai::{Heap, LAYOUT, SegmentRecord, SegmentSize, SegmentState, Segments, Shape};
use common::{ONE, STATES, at, full, id};

const HEADER: &str = include_str!("../../../include/borvukhai.h");

/// What the header defines a name to be.
fn defined(name: &str) -> Option<&'static str> {
    HEADER.lines().find_map(|line| line.strip_prefix("#define ")?.strip_prefix(name)?.strip_prefix(' '))
}

/// The number that the header defines a word of a segment's record to be.
fn state_word(name: &str) -> usize {
    let defined = defined(&format!("BORVUKHAI_STATE_{name}")).and_then(|text| text.split_whitespace().next());
    defined.and_then(|text| text.strip_suffix('u')?.parse().ok()).unwrap_or_else(|| panic!("no number for {name}"))
}

#[test]
fn version_and_layout() {
    assert_eq!(defined("BORVUKHAI_VERSION"), Some(concat!("\"", env!("CARGO_PKG_VERSION"), "\"")));
    assert_eq!(defined("BORVUKHAI_LAYOUT"), Some(format!("{LAYOUT}u").as_str()));
    assert!(borvukhai::check_layout(), "the library has layout {}", borvukhai::raw::layout());
}

/// A segment's record written by the header's names is read as this crate has it.
#[test]
fn the_words_of_a_segment() {
    assert_eq!(state_word("WORDS"), STATES);
    for size in SegmentSize::ALL {
        let mut words = full(size);
        for (name, word) in [("TAG", 2), ("CLASS", 12), ("PLACE", 3), ("MUTATOR", 7), ("KEPT", 10), ("HANDED_OUT", 11)] {
            words[at::tag(size) + state_word(name)] = word;
        }
        let heap = Heap::adopt_unexamined(ONE, size, words).unwrap();
        let state = SegmentState::Held { class: 12, place: 3, mutator: id(7) };
        assert!(heap.states(&mut [0; STATES]).unwrap().eq([SegmentRecord { state, kept: 10, handed_out: 11 }]));
    }
}

/// The line that the header shows is that of its segment 103: part, of class 12, with three of four blocks in use.
#[test]
fn the_line_of_the_sheet() {
    let line = HEADER.lines().find_map(|line| line.strip_prefix(" *   103 ")).unwrap();
    let (segments, size) = (Segments::new(104).unwrap(), SegmentSize::Kib16);
    let mut words = vec![0; segments.length(size)];
    let record = 1040 + 4096 * 104 + 6 * 103;
    words[record..record + 6].copy_from_slice(&[1, 12, 0, 0, 2, 1]);
    let mut sheet = vec![0; segments.sheet_length()];
    Heap::adopt_unexamined(segments, size, words).unwrap().sheet(&mut sheet).unwrap();
    assert_eq!(sheet.split(|&byte| byte == b'\n').nth(104).unwrap(), format!("103 {line}").as_bytes());
}

/// Document 01's table as document 02 has it, where each of the two longest classes ends, and numbers whose sum would wrap.
#[test]
fn classes() {
    let document = [(0, 3), (1, 3), (2, 4), (3, 4), (4, 5), (511, 11), (512, 12), (1023, 12), (1024, 13)];
    let table = document.into_iter().chain([(2047, 13), (2048, 14), (4095, 14)]);
    for (fields, class) in table {
        assert_eq!(Shape::new(0, fields).class(), Some(class));
        assert_eq!(Shape::new(fields, 0).class(), Some(class));
    }
    for shape in [Shape::new(4095, 1), Shape::new(0, 4096), Shape::new(u32::MAX, 2), Shape::new(u32::MAX, u32::MAX)] {
        assert_eq!(shape.class(), None);
    }
}
