//! Many cycles beside two mutators at work: each keeps a list of records and always finds in it what it put there. The heap is far too
//! small for all the records that are made, so the lists live on blocks that cycles freed.
#![cfg(feature = "alloc")]

mod common;

use std::collections::VecDeque;

use borvukhai::{Heap, Mutator, Refusal, Result, Root, SegmentRecord, SegmentSize, SegmentState, Segments, Shape, Step};
use common::id;

const SEGMENTS: Segments = Segments::new(4).unwrap();
const LIST: usize = 300;
const CYCLES: u32 = 200;

const FIRST: Root = Root::R0;
const LAST: Root = Root::R1;
const NEW: Root = Root::R2;
const NODE: Shape = Shape::new(1, 1);

/// A list in a mutator's roots FIRST and LAST, and what it should hold.
#[derive(Default)]
struct Queue {
    expected: VecDeque<u32>,
}

impl Queue {
    fn push(&mut self, mutator: &mut Mutator<'_>, value: u32) -> Result<()> {
        mutator.make(NEW, NODE)?;
        mutator.put(NEW, 0, value)?;
        if self.expected.is_empty() {
            mutator.copy(FIRST, NEW)?;
        } else {
            mutator.store(LAST, 0, NEW)?;
        }
        mutator.copy(LAST, NEW)?;
        mutator.clear(NEW)?;
        self.expected.push_back(value);
        Ok(())
    }

    fn pop(&mut self, mutator: &mut Mutator<'_>) -> Result<()> {
        assert_eq!(mutator.get(FIRST, 0).ok(), self.expected.pop_front());
        mutator.load(FIRST, FIRST, 0)
    }

    fn walk(&self, mutator: &mut Mutator<'_>) -> Result<()> {
        mutator.copy(NEW, FIRST)?;
        for &value in &self.expected {
            assert_eq!(mutator.get(NEW, 0), Ok(value));
            mutator.load(NEW, NEW, 0)?;
        }
        assert_eq!(mutator.shape(NEW), Err(Refusal::Dark), "the list ends");
        Ok(())
    }
}

/// One turn of a mutator: an acknowledgement, a record more, and one less where there are many.
fn turn(queue: &mut Queue, mutator: &mut Mutator<'_>, value: u32) -> Result<()> {
    mutator.check()?;
    queue.push(mutator, value)?;
    if queue.expected.len() > LIST { queue.pop(mutator) } else { Ok(()) }
}

fn examined(heap: &Heap<Box<[u32]>>) -> bool {
    heap.examine(&mut vec![1; SEGMENTS.scratch_length(heap.segment_size())]) == Ok(true)
}

/// Cycles that ended, by whether they had a segment to sweep.
#[derive(Default)]
struct Cycles {
    over_some: u32,
    over_nothing: u32,
    swept: bool,
}

impl Cycles {
    /// Three steps, and whether a cycle ended.
    fn run(&mut self, heap: &mut Heap<Box<[u32]>>) -> Result<()> {
        for _ in 0..3 {
            match heap.step()? {
                Step::Swept { .. } => self.swept = true,
                Step::Done => self.ended(heap),
                _ => {}
            }
        }
        Ok(())
    }

    fn ended(&mut self, heap: &Heap<Box<[u32]>>) {
        assert!(examined(heap));
        match self.swept {
            true => self.over_some += 1,
            false => self.over_nothing += 1,
        }
        self.swept = false;
    }
}

#[test]
fn lists_live_through_cycles() -> Result<()> {
    SegmentSize::ALL.into_iter().try_for_each(lists_live_at)
}

fn lists_live_at(size: SegmentSize) -> Result<()> {
    let mut heap = Heap::new(SEGMENTS, size);
    let mut queues = [Queue::default(), Queue::default()];
    heap.attach(id(0))?;
    heap.attach(id(1))?;
    let (mut cycles, mut made) = (Cycles::default(), 0);
    while cycles.over_some < CYCLES {
        assert!(made < 1000 * CYCLES * SEGMENTS.count(), "{} cycles only", cycles.over_some);
        for (number, queue) in queues.iter_mut().enumerate() {
            turn(queue, &mut heap.mutator(id(number as u32)), made)?;
            made += 1;
            let _ = heap.start(); // where no cycle runs; over nothing where no segment is full or part
            cycles.run(&mut heap)?;
        }
    }
    assert!(made > 100 * LIST as u32, "{made} records");
    assert!(cycles.over_nothing > 0);
    for (number, queue) in queues.iter().enumerate() {
        queue.walk(&mut heap.mutator(id(number as u32)))?;
    }
    Ok(())
}

#[test]
fn a_cycle_in_one_call_makes_room() -> Result<()> {
    for size in SegmentSize::ALL {
        let mut heap = Heap::new(Segments::MIN, size);
        heap.attach(id(0))?;
        heap.attach(id(1))?.leave()?;
        let mut freed = 0;
        for made in 1..=10_000 {
            if heap.mutator(id(0)).make(FIRST, Shape::new(0, 1000)) == Err(Refusal::NoRoom) {
                heap.start()?;
                freed += heap.finish_cycle()?;
                assert!(heap.mutator(id(0)).make(FIRST, Shape::new(0, 1000)).is_ok());
            }
            assert!(made - freed <= size.blocks(12));
        }
        assert_eq!(heap.finish_cycle(), Ok(0), "no cycle runs");
    }
    Ok(())
}

/// A venue plays long chases after short ones. Three short records, class 5, are dead in the one segment, since their mutator is gone; it is
/// part, none is full, and a long record, class 13, finds no room, before the cycle and in it, until the segment is swept: its three blocks
/// in use become free, none is left, and the segment is free for any class.
#[test]
fn long_records_after_short_ones() -> Result<()> {
    let (short, long) = (Shape::new(1, 5), Shape::new(0, 2000));
    for size in SegmentSize::ALL {
        let mut heap = Heap::new(Segments::MIN, size);
        let state = |heap: &Heap<Box<[u32]>>| heap.states(&mut [0; 6]).unwrap().next().unwrap();
        let mut mutator = heap.attach(id(0))?;
        [FIRST, LAST, NEW].into_iter().try_for_each(|to| mutator.make(to, short))?;
        mutator.detach()?;
        assert_eq!(state(&heap), SegmentRecord { state: SegmentState::Part { class: 5, place: 3 }, kept: 0, handed_out: 3 });

        assert_eq!(heap.attach(id(1))?.make(FIRST, long), Err(Refusal::NoRoom));
        heap.start()?;
        assert_eq!(state(&heap), SegmentRecord { state: SegmentState::Condemned { class: 5, place: 3 }, kept: 0, handed_out: 3 });
        heap.mutator(id(1)).leave()?;
        for _ in 0..3 {
            assert_eq!(heap.step(), Ok(Step::Moved));
        }
        heap.mutator(id(1)).enter()?;
        assert_eq!(heap.mutator(id(1)).make(FIRST, long), Err(Refusal::NoRoom));
        assert_eq!(heap.mutator(id(1)).make(FIRST, short), Err(Refusal::NoRoom));
        assert_eq!(heap.step(), Ok(Step::Swept { segment: 0, freed: 3 }));
        assert_eq!(heap.mutator(id(1)).make(FIRST, long), Ok(()));
        assert_eq!(heap.step(), Ok(Step::Done));
    }
    Ok(())
}

/// The bound of finish_cycle is met by a heap full of the smallest records, all of them alive.
#[test]
fn a_cycle_of_all_the_blocks_ends_within_the_bound() -> Result<()> {
    for size in SegmentSize::ALL {
        let mut heap = Heap::new(SEGMENTS, size);
        let mut mutator = heap.attach(id(0))?;
        while mutator.make(NEW, Shape::new(1, 0)).is_ok() {
            mutator.store(NEW, 0, FIRST)?;
            mutator.copy(FIRST, NEW)?;
        }
        heap.start()?;
        assert_eq!(heap.finish_cycle(), Ok(0));
        heap.mutator(id(0)).clear(FIRST)?;
        heap.mutator(id(0)).clear(NEW)?;
        heap.start()?;
        assert_eq!(heap.finish_cycle(), Ok(size.most_blocks() * SEGMENTS.count()));
    }
    Ok(())
}
