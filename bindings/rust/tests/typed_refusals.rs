//! The refusals that the typed layer can meet. Script and Slot are those of the numbers' own conversions.

mod common;

use borvukhai::{Heap, MutatorId, Refusal, Root, SegmentSize, Segments, Shape, Step};
use common::{ONE, SHAPE, at, fresh, full, id, off_heap, scratch};

/// A heap over words that are not examined, of each size.
fn heaps(words: fn(SegmentSize) -> Vec<u32>) -> [Heap<Vec<u32>>; 2] {
    SegmentSize::ALL.map(|size| Heap::adopt_unexamined(ONE, size, words(size)).unwrap())
}

#[test]
fn size() {
    for size in SegmentSize::ALL {
        let [right, other, two] = [ONE.length(size), ONE.length(other_than(size)), Segments::new(2).unwrap().length(size)];
        for length in [0, right - 1, right + 1, other, two] {
            let refused = Heap::open(ONE, size, vec![9; length]).unwrap_err();
            assert_eq!(refused.refusal, Refusal::Size);
            assert_eq!(refused.memory, vec![9; length]);
            assert_eq!(Heap::adopt_unexamined(ONE, size, vec![9; length]).unwrap_err().refusal, Refusal::Size);
            assert_eq!(Heap::adopt(ONE, size, vec![9; length], &mut scratch(size)).unwrap_err().refusal, Refusal::Size);
        }
    }
    for heap in heaps(fresh) {
        let size = heap.segment_size();
        assert_eq!(heap.states(&mut [0; 5]).unwrap_err(), Refusal::Size);
        for length in [0, 51, 53, 104] {
            assert_eq!(heap.sheet(&mut vec![0; length]), Err(Refusal::Size));
        }
        assert_eq!(heap.examine(&mut scratch(size)[1..]), Err(Refusal::Size));
        assert_eq!(heap.examine(&mut scratch(other_than(size))), Err(Refusal::Size));
    }
    assert_eq!(Segments::try_from(257), Err(Refusal::Size));
    assert_eq!(SegmentSize::try_from(64), Err(Refusal::Size));
}

fn other_than(size: SegmentSize) -> SegmentSize {
    match size {
        SegmentSize::Kib16 => SegmentSize::Kib32,
        SegmentSize::Kib32 => SegmentSize::Kib16,
    }
}

#[test]
fn script_and_slot() {
    assert_eq!(MutatorId::try_from(32), Err(Refusal::Script));
    assert_eq!(Root::try_from(16), Err(Refusal::Slot));
}

#[test]
fn taken() {
    for mut heap in heaps(fresh) {
        assert_eq!(heap.attach(id(0)).unwrap_err(), Refusal::Taken);
        assert_eq!(heap.spawn(id(0), id(0), Root::R0).unwrap_err(), Refusal::Taken);
    }
}

#[test]
fn absent() {
    for mut heap in heaps(full) {
        assert_eq!(heap.spawn(id(1), id(2), Root::R0).unwrap_err(), Refusal::Absent);
        let mut mutator = heap.mutator(id(1));
        assert_eq!(mutator.make(Root::R0, SHAPE), Err(Refusal::Absent));
        assert_eq!(mutator.load(Root::R0, Root::R0, 0), Err(Refusal::Absent));
        assert_eq!(mutator.store(Root::R0, 0, Root::R0), Err(Refusal::Absent));
        assert_eq!(mutator.put(Root::R0, 0, 0), Err(Refusal::Absent));
        assert_eq!(mutator.get(Root::R0, 0), Err(Refusal::Absent));
        assert_eq!(mutator.copy(Root::R0, Root::R0), Err(Refusal::Absent));
        assert_eq!(mutator.clear(Root::R0), Err(Refusal::Absent));
        assert_eq!(mutator.same(Root::R0, Root::R0), Err(Refusal::Absent));
        assert_eq!(mutator.shape(Root::R0), Err(Refusal::Absent));
        assert_eq!(mutator.check(), Err(Refusal::Absent));
        assert_eq!(mutator.leave(), Err(Refusal::Absent));
        assert_eq!(mutator.enter(), Err(Refusal::Absent));
        assert_eq!(mutator.detach(), Err(Refusal::Absent));
    }
}

#[test]
fn side() {
    for mut heap in heaps(full) {
        let mut mutator = heap.mutator(id(0));
        assert_eq!(mutator.enter(), Err(Refusal::Side));
        mutator.leave().unwrap();
        assert_eq!(mutator.leave(), Err(Refusal::Side));
        assert_eq!(mutator.get(Root::R0, 0), Err(Refusal::Side));
        assert_eq!(mutator.detach(), Err(Refusal::Side));
        assert_eq!(heap.spawn(id(1), id(0), Root::R0).unwrap_err(), Refusal::Side);
        assert_eq!(heap.mutator(id(0)).enter(), Ok(()));
    }
}

#[test]
fn dark_and_field() {
    for mut heap in heaps(full) {
        let mut mutator = heap.mutator(id(0));
        assert_eq!(mutator.shape(Root::R15), Err(Refusal::Dark));
        assert_eq!(mutator.load(Root::R4, Root::R15, 0), Err(Refusal::Dark));
        assert_eq!(mutator.store(Root::R0, 1, Root::R1), Err(Refusal::Field));
        assert_eq!(mutator.get(Root::R0, 600), Err(Refusal::Field));
        assert_eq!(mutator.put(Root::R0, 599, 1), Ok(()));
    }
}

#[test]
fn too_big_and_no_room() {
    for mut heap in heaps(full) {
        let mut mutator = heap.mutator(id(0));
        assert_eq!(mutator.make(Root::R0, Shape::new(4095, 1)), Err(Refusal::TooBig));
        assert_eq!(mutator.make(Root::R0, Shape::new(u32::MAX, 2)), Err(Refusal::TooBig));
        assert_eq!(mutator.make(Root::R0, Shape::new(4095, 0)), Err(Refusal::NoRoom));
        assert_eq!(mutator.make(Root::R0, SHAPE), Err(Refusal::NoRoom));
    }
}

#[test]
fn not_now() {
    for mut heap in heaps(full) {
        heap.start().unwrap();
        assert_eq!(heap.start(), Err(Refusal::NotNow));
        assert_eq!(heap.attach(id(1)).unwrap_err(), Refusal::NotNow);
        assert_eq!(heap.spawn(id(1), id(0), Root::R0).unwrap_err(), Refusal::NotNow);
        assert_eq!(heap.mutator(id(0)).detach(), Err(Refusal::NotNow));
        assert_eq!(heap.step(), Ok(Step::Waiting(1)), "it is still attached");
    }
}

#[test]
fn torn() {
    let off = |size| {
        let mut words = full(size);
        words[at::ROOT] = off_heap(size);
        words
    };
    for mut heap in heaps(off) {
        assert_eq!(heap.mutator(id(0)).shape(Root::R0), Err(Refusal::Torn));
    }
    let no_phase = |size| {
        let mut words = fresh(size);
        words[at::PHASE] = 5;
        words
    };
    for mut heap in heaps(no_phase) {
        assert_eq!(heap.phase(), Err(Refusal::Torn));
        assert_eq!(heap.step(), Err(Refusal::Torn));
        assert_eq!(heap.finish_cycle(), Err(Refusal::Torn));
    }
    let no_tag = |size| {
        let mut words = fresh(size);
        words[at::tag(size)] = 5;
        words
    };
    for heap in heaps(no_tag) {
        assert_eq!(heap.states(&mut [0; 6]).unwrap_err(), Refusal::Torn);
        assert_eq!(heap.sheet(&mut [0; 52]), Err(Refusal::Torn));
        #[cfg(feature = "alloc")]
        assert_eq!(heap.sheet_string(), Err(Refusal::Torn));
    }
}
