//! Records of every class, and those of up to 4,095 fields above all: a detach that hands back eleven segments, or twelve, the first and last
//! field of the longest records and a cycle over them, and where refusals 9 and 10 begin.

mod common;

use borvukhai::{Heap, Refusal, Result, Root, SegmentSize, SegmentState, Segments, Shape, Step};
use common::{ONE, id};

const TWO: Segments = Segments::new(2).unwrap();
/// The fields of a record.
const MOST: u32 = 4095;

/// A heap with mutator 0 inside, in memory that was not 0.
fn opened(segments: Segments, size: SegmentSize) -> Result<Heap<Vec<u32>>> {
    let mut heap = Heap::open(segments, size, vec![0xa5a5_a5a5; segments.length(size)])?;
    heap.attach(id(0))?;
    Ok(heap)
}

/// The states of all segments, over memory that passes the examination.
fn look(heap: &Heap<Vec<u32>>) -> Vec<SegmentState> {
    assert_eq!(heap.examine(&mut vec![7; heap.segments().scratch_length(heap.segment_size())]), Ok(true));
    let mut output = vec![0; heap.segments().states_length()];
    heap.states(&mut output).unwrap().map(|record| record.state).collect()
}

/// A cycle with mutator 0 outside: the records marked, and the segments swept with the blocks that became free.
fn cycle(heap: &mut Heap<Vec<u32>>) -> Result<(u32, Vec<(u32, u32)>)> {
    let (mut traced, mut swept) = (0, Vec::new());
    heap.start()?;
    heap.mutator(id(0)).leave()?;
    loop {
        match heap.step()? {
            Step::Moved => {}
            Step::Traced => traced += 1,
            Step::Swept { segment, freed } => swept.push((segment, freed)),
            Step::Done => break,
            other => panic!("{other:?}"),
        }
    }
    heap.mutator(id(0)).enter()?;
    Ok((traced, swept))
}

/// The longest records of a class.
fn shape_of(class: u32) -> Shape {
    let fields = (1 << class) / 4 - 1;
    Shape::new(fields / 2, fields - fields / 2)
}

/// What a segment is while mutator `holder` holds it, or nobody: full where its place is past its last block.
fn shared(size: SegmentSize, class: u32, place: u32, holder: Option<u32>) -> SegmentState {
    match holder {
        _ if place == size.blocks(class) => SegmentState::Full { class, place },
        Some(holder) => SegmentState::Held { class, place, mutator: id(holder) },
        None => SegmentState::Part { class, place },
    }
}

/// Twelve segments: mutator 0 has records in one of each class. That of class 14 is full at 16 KiB, and it holds the others. Its detach makes
/// them part, eleven or all twelve, each with its class and place, and mutator 1 finds each of them by its class.
#[test]
fn a_detach_hands_back_eleven_or_twelve() -> Result<()> {
    for (size, handed_back) in [(SegmentSize::Kib16, 11), (SegmentSize::Kib32, 12)] {
        let classes = (3..=14).zip([1, 2, 3, 1, 2, 3, 1, 2, 3, 1, 1, 1]);
        let mut heap = opened(Segments::new(12).unwrap(), size)?;
        for (class, place) in classes.clone() {
            for _ in 0..place {
                heap.mutator(id(0)).make(Root::new(class).unwrap(), shape_of(class))?;
            }
        }
        assert!(look(&heap).into_iter().eq(classes.clone().map(|(class, place)| shared(size, class, place, Some(0)))));
        heap.mutator(id(0)).detach()?;
        assert!(look(&heap).into_iter().eq(classes.clone().map(|(class, place)| shared(size, class, place, None))));
        assert_eq!(look(&heap).iter().filter(|state| matches!(state, SegmentState::Part { .. })).count(), handed_back);
        let mut mutator = heap.attach(id(1))?;
        for class in 3..=14 {
            let room = handed_back == 12 || class != 14;
            assert_eq!(mutator.make(Root::R0, shape_of(class)), if room { Ok(()) } else { Err(Refusal::NoRoom) });
        }
        let again = classes.map(|(class, place)| shared(size, class, size.blocks(class).min(place + 1), Some(1)));
        assert!(look(&heap).into_iter().eq(again));
    }
    Ok(())
}

/// A new record in root 0: all its pointers are nil, all its values 0, and there is no field beyond them.
fn make_new(heap: &mut Heap<Vec<u32>>, shape: Shape) -> Result<()> {
    let mut mutator = heap.mutator(id(0));
    mutator.make(Root::R0, shape)?;
    assert_eq!(mutator.shape(Root::R0), Ok(shape));
    for field in 0..shape.pointers {
        mutator.load(Root::R1, Root::R0, field)?;
        assert_eq!(mutator.shape(Root::R1), Err(Refusal::Dark));
    }
    for field in 0..shape.values {
        assert_eq!(mutator.get(Root::R0, field), Ok(0));
    }
    assert_eq!(mutator.load(Root::R1, Root::R0, shape.pointers), Err(Refusal::Field));
    assert_eq!(mutator.store(Root::R0, shape.pointers, Root::R1), Err(Refusal::Field));
    assert_eq!(mutator.get(Root::R0, shape.values), Err(Refusal::Field));
    assert_eq!(mutator.put(Root::R0, shape.values, 1), Err(Refusal::Field));
    Ok(())
}

/// Two records of class 13, in segment 1, go behind the first and the last pointer, and 33 and 44 into the first and last value.
fn store_first_and_last(heap: &mut Heap<Vec<u32>>, shape: Shape) -> Result<()> {
    let mut mutator = heap.mutator(id(0));
    for (root, value) in [(Root::R1, 11), (Root::R2, 22)] {
        mutator.make(root, shape_of(13))?;
        mutator.put(root, 0, value)?;
    }
    if let Some(last) = shape.pointers.checked_sub(1) {
        mutator.store(Root::R0, 0, Root::R1)?;
        mutator.store(Root::R0, last, Root::R2)?;
    }
    if let Some(last) = shape.values.checked_sub(1) {
        mutator.put(Root::R0, 0, 33)?;
        mutator.put(Root::R0, last, 44)?;
    }
    Ok(())
}

/// What was stored and put is found; where there is one field only, it has what came last.
fn is_kept(heap: &mut Heap<Vec<u32>>, shape: Shape) -> Result<()> {
    let mut mutator = heap.mutator(id(0));
    if let Some(last) = shape.pointers.checked_sub(1) {
        mutator.load(Root::R1, Root::R0, 0)?;
        mutator.load(Root::R2, Root::R0, last)?;
        assert_eq!(mutator.get(Root::R1, 0), Ok(if last == 0 { 22 } else { 11 }));
        assert_eq!(mutator.get(Root::R2, 0), Ok(22));
        assert_eq!(mutator.same(Root::R1, Root::R2), Ok(last == 0));
    }
    if let Some(last) = shape.values.checked_sub(1) {
        assert_eq!(mutator.get(Root::R0, 0), Ok(if last == 0 { 44 } else { 33 }));
        assert_eq!(mutator.get(Root::R0, last), Ok(44));
    }
    mutator.clear(Root::R1)?;
    mutator.clear(Root::R2)
}

/// A record of 4,095 fields, from its make to the sweep that frees it. Dead records fill its segment, and that of the two of class 13, where
/// these do not. A cycle keeps it while a root has it, and what its pointers have; when it is cleared, the next cycle makes its segment free,
/// and that of what was behind its pointers, be it full or part.
#[test]
fn records_of_the_most_fields() -> Result<()> {
    for (size, pointers) in
        SegmentSize::ALL.into_iter().flat_map(|size| [0, 1, 2, MOST / 2, MOST - 1, MOST].map(|pointers| (size, pointers)))
    {
        let (shape, kept) = (Shape::new(pointers, MOST - pointers), pointers.min(2));
        let (long, beside) = (size.blocks(14), size.blocks(13));
        let swept_to = |class, kept| match kept {
            0 => SegmentState::Free,
            kept if kept == size.blocks(class) => SegmentState::Full { class, place: kept },
            _ => SegmentState::Part { class, place: 0 },
        };
        let mut heap = opened(TWO, size)?;
        make_new(&mut heap, shape)?;
        store_first_and_last(&mut heap, shape)?;
        for (class, dead) in [(14, long - 1), (13, beside - 2)] {
            (0..dead).try_for_each(|_| heap.mutator(id(0)).make(Root::R1, shape_of(class)))?;
        }
        is_kept(&mut heap, shape)?;
        assert_eq!(look(&heap), [SegmentState::Full { class: 14, place: long }, SegmentState::Full { class: 13, place: beside }]);
        assert_eq!(cycle(&mut heap)?, (1 + kept, vec![(0, long - 1), (1, beside - kept)]));
        is_kept(&mut heap, shape)?;
        assert_eq!(look(&heap), [swept_to(14, 1), swept_to(13, kept)]);
        heap.mutator(id(0)).clear(Root::R0)?;
        let swept = match kept {
            0 => vec![(0, 1)],
            _ => vec![(0, 1), (1, kept)],
        };
        assert_eq!(cycle(&mut heap)?, (0, swept));
        assert_eq!(look(&heap), [SegmentState::Free; 2]);
    }
    Ok(())
}

/// 4,095 fields are accepted and 4,096 refused, however they are split.
#[test]
fn every_split() -> Result<()> {
    for (size, pointers) in SegmentSize::ALL.into_iter().flat_map(|size| (0..=MOST + 1).map(move |pointers| (size, pointers))) {
        let mut heap = opened(ONE, size)?;
        let mut mutator = heap.mutator(id(0));
        assert_eq!(mutator.make(Root::R0, Shape::new(pointers, MOST + 1 - pointers)), Err(Refusal::TooBig));
        if pointers <= MOST {
            assert_eq!(mutator.make(Root::R0, Shape::new(pointers, MOST - pointers)), Ok(()));
        }
    }
    Ok(())
}

/// Counts whose sum would wrap are refused too.
#[test]
fn sums_that_would_wrap() -> Result<()> {
    for size in SegmentSize::ALL {
        let mut heap = opened(ONE, size)?;
        let mut mutator = heap.mutator(id(0));
        for high in [MOST + 1, 65_535, 65_536, u32::MAX / 2, u32::MAX / 2 + 1, u32::MAX - MOST, u32::MAX - 1, u32::MAX] {
            for low in [0, 1, 1023, MOST, MOST + 1].into_iter().flat_map(|sum: u32| [0, sum.wrapping_sub(high)]) {
                assert_eq!(mutator.make(Root::R0, Shape::new(high, low)), Err(Refusal::TooBig));
                assert_eq!(mutator.make(Root::R0, Shape::new(low, high)), Err(Refusal::TooBig));
            }
        }
    }
    Ok(())
}

/// Records of class 14 fill two segments, and the next is refused; what a cycle frees is used again. At 16 KiB a segment has one of them,
/// and is full at once; at 32 KiB it has two, is held with the first, and is full with the second.
#[test]
fn class_14_fills_two_segments() -> Result<()> {
    for size in SegmentSize::ALL {
        let place = size.blocks(14);
        let mut heap = opened(TWO, size)?;
        let mut mutator = heap.mutator(id(0));
        for _ in 0..place {
            mutator.make(Root::R0, Shape::new(0, 2048))?;
        }
        mutator.make(Root::R1, Shape::new(MOST, 0))?;
        let second = heap.states(&mut [0; TWO.states_length()])?.nth(1).unwrap().state;
        match size {
            SegmentSize::Kib16 => assert_eq!(second, SegmentState::Full { class: 14, place: 1 }),
            SegmentSize::Kib32 => assert_eq!(second, SegmentState::Held { class: 14, place: 1, mutator: id(0) }),
        }
        let mut mutator = heap.mutator(id(0));
        for _ in 1..place {
            mutator.make(Root::R1, Shape::new(MOST, 0))?;
        }
        assert_eq!(mutator.make(Root::R2, Shape::new(0, MOST)), Err(Refusal::NoRoom));
        assert_eq!(mutator.make(Root::R2, Shape::new(0, 0)), Err(Refusal::NoRoom));
        mutator.clear(Root::R1)?;
        assert_eq!(look(&heap), [SegmentState::Full { class: 14, place }; 2]);
        assert_eq!(cycle(&mut heap)?, (1, vec![(0, place - 1), (1, place)]));
        for _ in 0..2 * place - 1 {
            assert_eq!(heap.mutator(id(0)).make(Root::R2, Shape::new(0, MOST)), Ok(()));
        }
        assert_eq!(heap.mutator(id(0)).make(Root::R1, Shape::new(0, MOST)), Err(Refusal::NoRoom));
    }
    Ok(())
}
