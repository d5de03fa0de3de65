//! Document 01's whole case, the changeover of docs/CHANGEOVER.md, and cycles over nothing, through the typed layer. At 32 KiB a segment is
//! filled by eight records where those papers have four, and the others live.

mod common;

use borvukhai::{Heap, Mutator, Refusal, Result, Root, SegmentRecord, SegmentSize, SegmentState, Segments, Step};
use common::{SHAPE, fill, id};

const TWO: Segments = Segments::new(2).unwrap();

type Words = Vec<u32>;

fn opened(size: SegmentSize) -> Result<Heap<Words>> {
    Ok(Heap::open(TWO, size, vec![0; TWO.length(size)])?)
}

/// Steps that answer what is expected.
fn steps(heap: &mut Heap<Words>, expected: &[Step]) {
    for &step in expected {
        assert_eq!(heap.step(), Ok(step));
    }
}

/// So many records are marked, and then the phase is sweep.
fn traced(heap: &mut Heap<Words>, records: u32) {
    (0..records).for_each(|_| steps(heap, &[Step::Traced]));
    steps(heap, &[Step::Moved]);
}

/// So many records into the roots from 0 on.
fn make(mutator: &mut Mutator<'_>, records: u32) -> Result<()> {
    Root::all().take(records as usize).try_for_each(|root| mutator.make(root, SHAPE))
}

#[test]
fn the_whole_case() -> Result<()> {
    for size in SegmentSize::ALL {
        let mut heap = opened(size)?;
        let mut mutator = heap.attach(id(0))?;
        make(&mut mutator, fill(size))?;
        mutator.store(Root::R0, 0, Root::R1)?;
        mutator.put(Root::R1, 0, 77)?;
        mutator.clear(Root::R1)?;
        mutator.clear(Root::R2)?;
        heap.start()?;
        steps(&mut heap, &[Step::Waiting(1)]);
        heap.mutator(id(0)).check()?;
        steps(&mut heap, &[Step::Moved]);
        heap.mutator(id(0)).check()?;
        steps(&mut heap, &[Step::Moved]);
        traced(&mut heap, fill(size) - 1);
        steps(&mut heap, &[Step::Swept { segment: 0, freed: 1 }, Step::Done]);
        let mut mutator = heap.mutator(id(0));
        mutator.load(Root::R1, Root::R0, 0)?;
        assert_eq!(mutator.get(Root::R1, 0), Ok(77));
    }
    Ok(())
}

/// Lines 1 to 13 of the changeover: A, in root 0 of mutators 0 and 1, has the only pointer to K.
fn changeover_built(size: SegmentSize) -> Result<Heap<Words>> {
    let mut heap = opened(size)?;
    heap.attach(id(0))?;
    heap.attach(id(2))?;
    let mut mutator = heap.mutator(id(0));
    make(&mut mutator, fill(size))?;
    mutator.put(Root::R1, 0, 77)?;
    mutator.store(Root::R0, 0, Root::R1)?;
    heap.spawn(id(1), id(0), Root::R0)?;
    let mut mutator = heap.mutator(id(0));
    Root::all().skip(1).try_for_each(|root| mutator.clear(root))?;
    Ok(heap)
}

/// Lines 14 to 30: mutator 1 loads K, and mutator 0 removes the last pointer to it behind the collector's back.
fn changeover_first_cycle(heap: &mut Heap<Words>) -> Result<()> {
    heap.start()?;
    steps(heap, &[Step::Waiting(3)]);
    heap.mutator(id(0)).check()?;
    heap.mutator(id(1)).check()?;
    heap.mutator(id(2)).leave()?;
    steps(heap, &[Step::Moved]);
    heap.mutator(id(1)).check()?;
    steps(heap, &[Step::Waiting(1)]);
    heap.mutator(id(1)).load(Root::R1, Root::R0, 0)?;
    heap.mutator(id(0)).store(Root::R0, 0, Root::R15)?;
    heap.mutator(id(0)).check()?;
    steps(heap, &[Step::Moved]);
    traced(heap, 2);
    let freed = fill(heap.segment_size()) - 2;
    steps(heap, &[Step::Swept { segment: 0, freed }, Step::Done]);
    Ok(())
}

/// Lines 31 to 38: mutator 2 writes into the blocks that became free; K keeps its value.
fn changeover_free_blocks(heap: &mut Heap<Words>) -> Result<()> {
    let freed = fill(heap.segment_size()) - 2;
    let mut mutator = heap.mutator(id(2));
    mutator.enter()?;
    make(&mut mutator, freed)?;
    for (root, value) in Root::all().zip(1..=freed) {
        mutator.put(root, 0, value)?;
    }
    assert_eq!(heap.mutator(id(1)).get(Root::R1, 0), Ok(77));
    let mut mutator = heap.mutator(id(0));
    mutator.load(Root::R1, Root::R0, 0)?;
    assert_eq!(mutator.shape(Root::R1), Err(Refusal::Dark));
    Ok(())
}

#[test]
fn the_changeover() -> Result<()> {
    for size in SegmentSize::ALL {
        let mut heap = changeover_built(size)?;
        changeover_first_cycle(&mut heap)?;
        changeover_free_blocks(&mut heap)?;
        heap.mutator(id(1)).clear(Root::R1)?;
        heap.start()?;
        for number in 0..3 {
            heap.mutator(id(number)).leave()?;
        }
        steps(&mut heap, &[Step::Moved, Step::Moved]);
        traced(&mut heap, fill(size) - 1);
        steps(&mut heap, &[Step::Swept { segment: 0, freed: 1 }, Step::Done]);
    }
    Ok(())
}

/// With nothing full and no mutator, each phase has one step.
#[test]
fn a_cycle_over_nothing() -> Result<()> {
    for size in SegmentSize::ALL {
        let mut heap = opened(size)?;
        heap.start()?;
        assert_eq!(heap.start(), Err(Refusal::NotNow));
        steps(&mut heap, &[Step::Moved, Step::Moved, Step::Moved, Step::Done, Step::Idle]);
    }
    Ok(())
}

/// With one mutator inside, each handshake waits for it, and its record is marked; it goes on with the segment that it holds.
#[test]
fn a_cycle_over_nothing_with_a_mutator() -> Result<()> {
    for size in SegmentSize::ALL {
        let mut heap = opened(size)?;
        heap.attach(id(0))?.make(Root::R0, SHAPE)?;
        heap.start()?;
        for _ in 0..2 {
            steps(&mut heap, &[Step::Waiting(1)]);
            heap.mutator(id(0)).check()?;
            steps(&mut heap, &[Step::Moved]);
        }
        traced(&mut heap, 1);
        heap.mutator(id(0)).make(Root::R1, SHAPE)?;
        steps(&mut heap, &[Step::Done, Step::Idle]);
        let mut states = [0; TWO.states_length()];
        let held = SegmentState::Held { class: 12, place: 2, mutator: id(0) };
        let expected = [(held, 2), (SegmentState::Free, 0)].map(|(state, handed_out)| SegmentRecord { state, kept: 0, handed_out });
        assert!(heap.states(&mut states)?.eq(expected));
    }
    Ok(())
}

#[test]
fn same_copy_and_shape() -> Result<()> {
    for size in SegmentSize::ALL {
        let mut heap = opened(size)?;
        let mut mutator = heap.attach(id(31))?;
        assert_eq!(mutator.id(), id(31));
        make(&mut mutator, fill(size))?;
        assert_eq!(mutator.shape(Root::R3), Ok(SHAPE));
        assert_eq!(mutator.same(Root::R0, Root::R1), Ok(false));
        mutator.copy(Root::R1, Root::R0)?;
        assert_eq!(mutator.same(Root::R0, Root::R1), Ok(true));
        assert_eq!(mutator.same(Root::R14, Root::R15), Ok(true));
        assert_eq!(mutator.same(Root::R0, Root::R15), Ok(false));
        mutator.detach()?;
    }
    Ok(())
}
