//! The looks: a segment through its five states, the phases of a cycle, the sheet, the examination, and that none of them changes the
//! memory.

mod common;

use borvukhai::{Heap, Phase, Refusal, Root, SegmentRecord, SegmentSize, SegmentState, Segments, Shape, Step};
use common::{ONE, SHAPE, STATES, at, fill, fresh, full, id};

/// The state, the blocks kept and the blocks handed out.
fn look(heap: &Heap<Vec<u32>>) -> (SegmentState, u32, u32) {
    let before = heap.memory().to_vec();
    let mut output = [9; STATES];
    let mut states = heap.states(&mut output).unwrap();
    assert_eq!(states.len(), 1);
    let SegmentRecord { state, kept, handed_out } = states.next().unwrap();
    assert_eq!((states.len(), states.next()), (0, None));
    assert!(heap.memory() == before, "a word has changed");
    (state, kept, handed_out)
}

#[test]
fn the_states_of_a_segment() {
    for size in SegmentSize::ALL {
        let all = fill(size);
        let mut heap = Heap::open(ONE, size, vec![0; ONE.length(size)]).unwrap();
        assert_eq!(look(&heap), (SegmentState::Free, 0, 0));
        heap.attach(id(7)).unwrap().make(Root::R0, SHAPE).unwrap();
        assert_eq!(look(&heap), (SegmentState::Held { class: 12, place: 1, mutator: id(7) }, 0, 1));
        heap.spawn(id(0), id(7), Root::R0).unwrap();
        heap.mutator(id(7)).detach().unwrap();
        assert_eq!(look(&heap), (SegmentState::Part { class: 12, place: 1 }, 0, 1));
        for _ in 1..all {
            heap.mutator(id(0)).make(Root::R1, SHAPE).unwrap();
        }
        assert_eq!(look(&heap), (SegmentState::Full { class: 12, place: all }, 0, all));
        heap.start().unwrap();
        assert_eq!(look(&heap), (SegmentState::Condemned { class: 12, place: all }, 0, all));
        assert_eq!(heap.finish_cycle(), Ok(all - 2));
        assert_eq!(look(&heap), (SegmentState::Part { class: 12, place: 0 }, 2, 0));
    }
}

#[test]
fn the_phases_of_a_cycle() {
    for size in SegmentSize::ALL {
        let mut heap = Heap::adopt_unexamined(ONE, size, full(size)).unwrap();
        assert_eq!(heap.phase(), Ok(Phase::Idle));
        heap.start().unwrap();
        assert_eq!(heap.phase(), Ok(Phase::Sync1));
        heap.mutator(id(0)).leave().unwrap();
        for (traced, then) in [(0, Phase::Sync2), (0, Phase::Mark), (fill(size), Phase::Sweep)] {
            for _ in 0..traced {
                assert_eq!(heap.step(), Ok(Step::Traced));
            }
            assert_eq!(heap.step(), Ok(Step::Moved));
            assert_eq!(heap.phase(), Ok(then));
        }
        assert_eq!(heap.step(), Ok(Step::Swept { segment: 0, freed: 0 }));
        assert_eq!(heap.step(), Ok(Step::Done));
        assert_eq!(heap.phase(), Ok(Phase::Idle));
        assert_eq!(heap.step(), Ok(Step::Idle));
    }
}

/// The line of a segment, reckoned from its record.
fn line(segment: usize, record: SegmentRecord, size: SegmentSize) -> String {
    let (letter, class) = match record.state {
        SegmentState::Free => return format!("{segment:3} -- F    0    0 {}\n", ".".repeat(32)),
        SegmentState::Part { class, .. } => ('P', class),
        SegmentState::Held { class, .. } => ('H', class),
        SegmentState::Full { class, .. } => ('L', class),
        SegmentState::Condemned { class, .. } => ('C', class),
    };
    let (used, all) = (record.in_use(), u64::from(size.blocks(class)));
    let bar = "#".repeat((32 * used / all) as usize);
    format!("{segment:3} {class:2} {letter} {used:4} {:4} {bar:.<32}\n", all - used)
}

/// The whole sheet, reckoned from a look at the states.
fn reckoned(heap: &Heap<Vec<u32>>) -> String {
    let mut output = vec![0; heap.segments().states_length()];
    let states = heap.states(&mut output).unwrap();
    let last = states.len() - 1;
    let lines = states.enumerate().map(|(segment, record)| {
        let empty = if segment % 60 == 59 && segment < last { "\n" } else { "" };
        line(segment, record, heap.segment_size()) + empty
    });
    lines.collect()
}

/// The sheet, in an output that begins at an odd address; it is the one reckoned, and no word of the memory has changed.
fn sheet(heap: &Heap<Vec<u32>>) -> String {
    let before = heap.memory().to_vec();
    let mut bytes = vec![b'?'; heap.segments().sheet_length() + 2];
    let odd = 1 - bytes.as_ptr() as usize % 2;
    let (output, behind) = bytes[odd..].split_at_mut(heap.segments().sheet_length());
    heap.sheet(output).unwrap();
    assert!(behind.iter().all(|&byte| byte == b'?'));
    assert!(heap.memory() == before, "a word has changed");
    let text = String::from_utf8(output.to_vec()).unwrap();
    assert_eq!(text, reckoned(heap));
    #[cfg(feature = "alloc")]
    assert_eq!(heap.sheet_string(), Ok(text.clone()));
    text
}

#[test]
fn the_sheet_of_opened_heaps() {
    for size in SegmentSize::ALL {
        for (count, lines) in [(1, 1), (59, 59), (60, 60), (61, 62), (120, 121), (121, 123), (256, 260)] {
            let segments = Segments::new(count).unwrap();
            let text = sheet(&Heap::open(segments, size, vec![7; segments.length(size)]).unwrap());
            assert_eq!((text.len(), text.lines().count()), (segments.sheet_length(), lines));
            assert!(text.starts_with("  0 -- F    0    0 ................................\n"));
            assert!(text.ends_with(".\n"));
            for (at, line) in text.lines().enumerate() {
                assert_eq!(line.len(), if at % 61 == 60 { 0 } else { 51 });
            }
        }
    }
}

#[test]
fn the_sheet_of_a_segment() {
    for size in SegmentSize::ALL {
        let mut heap = Heap::open(ONE, size, vec![0; ONE.length(size)]).unwrap();
        let is = |heap: &_, at_16, at_32| assert_eq!(sheet(heap), if size == SegmentSize::Kib16 { at_16 } else { at_32 });
        heap.attach(id(7)).unwrap().make(Root::R0, SHAPE).unwrap();
        is(&heap, "  0 12 H    1    3 ########........................\n", "  0 12 H    1    7 ####............................\n");
        heap.spawn(id(0), id(7), Root::R0).unwrap();
        heap.mutator(id(7)).detach().unwrap();
        is(&heap, "  0 12 P    1    3 ########........................\n", "  0 12 P    1    7 ####............................\n");
        for _ in 1..fill(size) {
            heap.mutator(id(0)).make(Root::R1, SHAPE).unwrap();
        }
        is(&heap, "  0 12 L    4    0 ################################\n", "  0 12 L    8    0 ################################\n");
        heap.start().unwrap();
        is(&heap, "  0 12 C    4    0 ################################\n", "  0 12 C    8    0 ################################\n");
        heap.finish_cycle().unwrap();
        is(&heap, "  0 12 P    2    2 ################................\n", "  0 12 P    2    6 ########........................\n");
    }
}

/// Every number of blocks in use, of every class but the two smallest.
#[test]
fn the_sheet_as_a_segment_fills() {
    for size in SegmentSize::ALL {
        for class in 5..=14 {
            let mut heap = Heap::open(ONE, size, vec![0; ONE.length(size)]).unwrap();
            heap.attach(id(0)).unwrap();
            for used in 1..=size.blocks(class) {
                heap.mutator(id(0)).make(Root::R0, Shape::new(0, (1 << class) / 4 - 1)).unwrap();
                let text = sheet(&heap);
                assert_eq!(text[9..13].trim_start().parse(), Ok(used));
                assert_eq!(text[14..18].trim_start().parse(), Ok(size.blocks(class) - used));
            }
        }
    }
}

#[test]
fn the_examination() {
    for size in SegmentSize::ALL {
        for (words, consistent) in [(fresh(size), true), (full(size), true), (vec![u32::MAX; ONE.length(size)], false)] {
            let heap = Heap::adopt_unexamined(ONE, size, words.clone()).unwrap();
            let mut scratch = vec![0xffff_ffff; ONE.scratch_length(size)];
            assert_eq!(heap.examine(&mut scratch), Ok(consistent));
            assert!(scratch.iter().all(|&word| word == 0));
            assert_eq!(heap.into_memory(), words);
        }
    }
}

#[test]
fn a_holder_over_31_is_torn() {
    for size in SegmentSize::ALL {
        let mut words = fresh(size);
        words[at::tag(size)..=at::holder(size)].copy_from_slice(&[2, 12, 0, 32]);
        let heap = Heap::adopt_unexamined(ONE, size, words).unwrap();
        assert_eq!(heap.states(&mut [0; STATES]).unwrap_err(), Refusal::Torn);
    }
}
