//! Whole cycles: handshakes, write barrier, born marked, mutators that come and go, and the sweep.

mod common;

use common::{World, SIZES};
use independent::{Step, FREE, FULL, HELD, IDLE, MARK, PART, SWEEP, SYNC1, SYNC2};

/// Two segments, the first full of four records in roots 0 to 3 of mutator 0.
fn world(kib: u32) -> World {
    let mut world = World::new(2, kib);
    assert_eq!(world.attach(0), Ok(()));
    world.fill_segment(0);
    world
}

fn clear_all(world: &mut World, mutator: u32) {
    for root in 0..16 {
        assert_eq!(world.clear(mutator, root), Ok(()));
    }
}

#[test]
fn phases() {
    for kib in SIZES {
        let mut world = world(kib);
        assert_eq!(world.phase(), IDLE);
        assert_eq!(world.start(), Ok(()));
        assert_eq!(world.phase(), SYNC1);
        assert_eq!(world.step(), Ok(Step::Waiting(1)));
        assert_eq!(world.check(0), Ok(()));
        assert_eq!(world.check(0), Ok(()));
        assert_eq!(world.step(), Ok(Step::Moved));
        assert_eq!(world.phase(), SYNC2);
        assert_eq!(world.step(), Ok(Step::Waiting(1)));
        assert_eq!(world.check(0), Ok(()));
        assert_eq!(world.step(), Ok(Step::Moved));
        assert_eq!(world.phase(), MARK);
        assert_eq!(world.trace_all(), 4);
        assert_eq!(world.phase(), SWEEP);
        assert_eq!(world.step(), Ok(Step::Swept { segment: 0, freed: 0 }));
        assert_eq!(world.state(0), [FULL, world.quarter(), 4, 0]);
        assert_eq!(world.step(), Ok(Step::Done));
        assert_eq!(world.phase(), IDLE);
    }
}

#[test]
fn all_dead_is_free() {
    for kib in SIZES {
        let mut world = world(kib);
        clear_all(&mut world, 0);
        assert_eq!(world.start(), Ok(()));
        world.play_to_mark(&[0]);
        assert_eq!(world.trace_all(), 0);
        assert_eq!(world.step(), Ok(Step::Swept { segment: 0, freed: 4 }));
        assert_eq!(world.state(0), [FREE, 0, 0, 0]);
        assert_eq!(world.step(), Ok(Step::Done));
        assert_eq!(world.make(0, 0, 0, 0), Ok(()));
        assert_eq!(world.state(0), [HELD, 3, 1, 0]);
    }
}

#[test]
fn no_mutator_at_all() {
    for kib in SIZES {
        let mut world = world(kib);
        assert_eq!(world.detach(0), Ok(()));
        assert_eq!(world.start(), Ok(()));
        for _ in 0..3 {
            assert_eq!(world.step(), Ok(Step::Moved));
        }
        assert_eq!(world.step(), Ok(Step::Swept { segment: 0, freed: 4 }));
        assert_eq!(world.step(), Ok(Step::Done));
    }
}

/// With nothing full or part, a cycle over nothing: each phase has one step.
#[test]
fn over_nothing() {
    for kib in SIZES {
        let mut world = World::new(2, kib);
        assert_eq!(world.start(), Ok(()));
        assert_eq!(world.phase(), SYNC1);
        for _ in 0..3 {
            assert_eq!(world.step(), Ok(Step::Moved));
        }
        assert_eq!(world.step(), Ok(Step::Done));
        assert_eq!(world.step(), Ok(Step::Idle));
    }
}

/// The handshakes wait for the mutator, its record is marked and its segment not swept; what becomes full is for the next cycle.
#[test]
fn over_nothing_with_a_mutator() {
    for kib in SIZES {
        let mut world = World::new(2, kib);
        assert_eq!(world.attach(0), Ok(()));
        assert_eq!(world.make_quarter(0, 4), Ok(()));
        assert_eq!(world.start(), Ok(()));
        for _ in 0..2 {
            assert_eq!(world.step(), Ok(Step::Waiting(1)));
            assert_eq!(world.check(0), Ok(()));
            assert_eq!(world.step(), Ok(Step::Moved));
        }
        assert_eq!(world.trace_all(), 1);
        for _ in 0..3 {
            assert_eq!(world.make_quarter(0, 5), Ok(()));
        }
        assert_eq!(world.step(), Ok(Step::Done));
        assert_eq!(world.state(0), [FULL, world.quarter(), 4, 0]);
        assert_eq!(world.start(), Ok(()));
        world.play_to_mark(&[0]);
        assert_eq!(world.trace_all(), 2);
        assert_eq!(world.step(), Ok(Step::Swept { segment: 0, freed: 2 }));
    }
}

/// The collector acknowledges for those outside; one that enters still owes.
#[test]
fn outside_mutators() {
    for kib in SIZES {
        let mut world = world(kib);
        for mutator in [1, 2, 30] {
            assert_eq!(world.spawn(mutator, 0, 1), Ok(()));
            assert_eq!(world.leave(mutator), Ok(()));
        }
        assert_eq!(world.start(), Ok(()));
        assert_eq!(world.enter(2), Ok(()));
        assert_eq!(world.step(), Ok(Step::Waiting(2)));
        assert_eq!(world.leave(2), Ok(()));
        assert_eq!(world.step(), Ok(Step::Waiting(1)));
        assert_eq!(world.enter(30), Ok(()));
        assert_eq!(world.check(0), Ok(()));
        assert_eq!(world.step(), Ok(Step::Moved));
        assert_eq!(world.step(), Ok(Step::Waiting(2)));
        assert_eq!(world.check(30), Ok(()));
        clear_all(&mut world, 0);
        assert_eq!(world.check(0), Ok(()));
        assert_eq!(world.step(), Ok(Step::Moved));
        assert_eq!(world.trace_all(), 1);
        assert_eq!(world.step(), Ok(Step::Swept { segment: 0, freed: 3 }));
    }
}

/// Between first acknowledgement and mark both values are entered.
#[test]
fn barrier_before_mark() {
    for kib in SIZES {
        let mut world = world(kib);
        assert_eq!(world.store(0, 0, 0, 1), Ok(()));
        assert_eq!(world.start(), Ok(()));
        assert_eq!(world.store(0, 0, 0, 2), Ok(()));
        assert_eq!(world.store(0, 0, 0, 1), Ok(()));
        assert_eq!(world.check(0), Ok(()));
        assert_eq!(world.store(0, 0, 0, 2), Ok(()));
        clear_all(&mut world, 0);
        assert_eq!(world.step(), Ok(Step::Moved));
        assert_eq!(world.check(0), Ok(()));
        assert_eq!(world.step(), Ok(Step::Moved));
        assert_eq!(world.trace_all(), 2);
        assert_eq!(world.step(), Ok(Step::Swept { segment: 0, freed: 2 }));
        assert_eq!(world.make_quarter(0, 5), Ok(()));
        assert_eq!(world.state(0), [HELD, world.quarter(), 1, 0]);
        assert_eq!(world.make_quarter(0, 5), Ok(()));
        assert_eq!(world.state(0), [FULL, world.quarter(), 4, 0]);
    }
}

/// The new value is entered before the old, as the trace stack shows: it grows down from the end of the memory.
#[test]
fn barrier_enters_the_new_value_first() {
    for kib in SIZES {
        let mut world = World::new(3, kib);
        assert_eq!(world.attach(0), Ok(()));
        world.fill_segment(0);
        assert_eq!(world.make_quarter(0, 4), Ok(()));
        assert_eq!(world.store(0, 0, 0, 1), Ok(()));
        assert_eq!(world.store(0, 1, 0, 3), Ok(()));
        assert_eq!(world.start(), Ok(()));
        assert_eq!(world.check(0), Ok(()));
        assert_eq!(world.store(0, 0, 0, 2), Ok(()));
        let entered: Vec<u32> = world.mem.iter().rev().take(2).copied().collect();
        assert_eq!(entered, [world.mem[2], world.mem[1]]);
    }
}

/// No duty before the first acknowledgement.
#[test]
fn no_barrier_before_the_first_acknowledgement() {
    for kib in SIZES {
        let mut world = world(kib);
        assert_eq!(world.store(0, 0, 0, 1), Ok(()));
        assert_eq!(world.start(), Ok(()));
        assert_eq!(world.store(0, 0, 0, 2), Ok(()));
        clear_all(&mut world, 0);
        world.play_to_mark(&[0]);
        assert_eq!(world.trace_all(), 0);
        assert_eq!(world.step(), Ok(Step::Swept { segment: 0, freed: 4 }));
    }
}

/// In mark the old value is entered, the new is not.
#[test]
fn barrier_in_mark() {
    for kib in SIZES {
        let mut world = world(kib);
        assert_eq!(world.store(0, 0, 0, 1), Ok(()));
        assert_eq!(world.store(0, 1, 0, 2), Ok(()));
        for root in 1..4 {
            assert_eq!(world.clear(0, root), Ok(()));
        }
        assert_eq!(world.start(), Ok(()));
        world.play_to_mark(&[0]);
        assert_eq!(world.load(0, 1, 0, 0), Ok(()));
        assert_eq!(world.load(0, 2, 1, 0), Ok(()));
        assert_eq!(world.store(0, 1, 0, 9), Ok(()));
        assert_eq!(world.store(0, 0, 0, 9), Ok(()));
        clear_all(&mut world, 0);
        assert_eq!(world.trace_all(), 3);
        assert_eq!(world.step(), Ok(Step::Swept { segment: 0, freed: 1 }));
        assert_eq!(world.state(0), [PART, world.quarter(), 0, 0]);
    }
}

/// The last entered is traced first: pointers in field order, so the last pointer's record first.
#[test]
fn trace_order() {
    for kib in SIZES {
        let mut world = World::new(2, kib);
        assert_eq!(world.attach(0), Ok(()));
        for root in 0..4 {
            assert_eq!(world.make(0, root, 2, 600 * kib / 16), Ok(()));
        }
        assert_eq!(world.store(0, 0, 0, 1), Ok(()));
        assert_eq!(world.store(0, 0, 1, 2), Ok(()));
        for root in 1..4 {
            assert_eq!(world.clear(0, root), Ok(()));
        }
        assert_eq!(world.start(), Ok(()));
        world.play_to_mark(&[0]);
        assert_eq!(world.step(), Ok(Step::Traced));
        assert_eq!(world.load(0, 1, 0, 0), Ok(()));
        assert_eq!(world.load(0, 2, 0, 1), Ok(()));
        assert_eq!(world.make(0, 3, 1, 0), Ok(()));
        assert_eq!(world.step(), Ok(Step::Traced));
        assert_eq!(world.store(0, 2, 0, 3), Ok(()));
        assert_eq!(world.trace_all(), 1);
        assert_eq!(world.step(), Ok(Step::Swept { segment: 0, freed: 1 }));
    }
}

/// A record made after the second acknowledgement is marked and never traced; one made before is traced.
#[test]
fn born_marked() {
    for kib in SIZES {
        let mut world = world(kib);
        for root in 1..4 {
            assert_eq!(world.clear(0, root), Ok(()));
        }
        assert_eq!(world.start(), Ok(()));
        assert_eq!(world.check(0), Ok(()));
        assert_eq!(world.make(0, 1, 1, 0), Ok(()));
        assert_eq!(world.step(), Ok(Step::Moved));
        assert_eq!(world.make(0, 2, 1, 0), Ok(()));
        assert_eq!(world.check(0), Ok(()));
        assert_eq!(world.make(0, 3, 1, 0), Ok(()));
        assert_eq!(world.store(0, 3, 0, 3), Ok(()));
        assert_eq!(world.step(), Ok(Step::Moved));
        assert_eq!(world.make(0, 4, 1, 0), Ok(()));
        assert_eq!(world.store(0, 4, 0, 3), Ok(()));
        assert_eq!(world.store(0, 4, 0, 4), Ok(()));
        assert_eq!(world.trace_all(), 3);
        assert_eq!(world.step(), Ok(Step::Swept { segment: 0, freed: 3 }));
    }
}

/// Mutators that come in during mark count as having acknowledged twice: born marked, no handshake owed.
#[test]
fn attach_and_spawn_in_mark() {
    for kib in SIZES {
        let mut world = world(kib);
        assert_eq!(world.start(), Ok(()));
        world.play_to_mark(&[0]);
        assert_eq!(world.attach(4), Ok(()));
        assert_eq!(world.spawn(5, 0, 2), Ok(()));
        for mutator in [4, 5] {
            assert_eq!(world.make(mutator, 1, 1, 100), Ok(()));
            if mutator == 4 {
                assert_eq!(world.store(4, 1, 0, 1), Ok(()));
                assert_eq!(world.store(4, 1, 0, 1), Ok(()));
                assert_eq!(world.detach(4), Ok(()));
            }
        }
        assert_eq!(world.trace_all(), 4);
        assert_eq!(world.step(), Ok(Step::Swept { segment: 0, freed: 0 }));
        assert_eq!(world.step(), Ok(Step::Done));
    }
}

/// A segment that becomes full during the cycle is not condemned.
#[test]
fn full_during_the_cycle() {
    for kib in SIZES {
        let mut world = world(kib);
        clear_all(&mut world, 0);
        assert_eq!(world.start(), Ok(()));
        world.fill_segment(0);
        clear_all(&mut world, 0);
        assert_eq!(world.state(1), [FULL, world.quarter(), 4, 0]);
        world.play_to_mark(&[0]);
        assert_eq!(world.trace_all(), 0);
        assert_eq!(world.step(), Ok(Step::Swept { segment: 0, freed: 4 }));
        assert_eq!(world.step(), Ok(Step::Done));
        assert_eq!(world.start(), Ok(()));
        world.play_to_mark(&[0]);
        assert_eq!(world.trace_all(), 0);
        assert_eq!(world.step(), Ok(Step::Swept { segment: 1, freed: 4 }));
    }
}

/// The lowest condemned segment is swept first, and the last freed is the first taken.
#[test]
fn sweep_order() {
    for kib in SIZES {
        let mut world = World::new(5, kib);
        assert_eq!(world.attach(0), Ok(()));
        for _ in 0..5 {
            world.fill_segment(0);
        }
        clear_all(&mut world, 0);
        assert_eq!(world.start(), Ok(()));
        world.play_to_mark(&[0]);
        assert_eq!(world.trace_all(), 0);
        for segment in 0..5 {
            assert_eq!(world.step(), Ok(Step::Swept { segment, freed: 4 }));
        }
        assert_eq!(world.step(), Ok(Step::Done));
        assert_eq!(world.make(0, 0, 0, 0), Ok(()));
        assert_eq!(world.state(4), [HELD, 3, 1, 0]);
    }
}

/// A segment of one block is swept to free or to full, one of two blocks to part too: classes 14 and 13 at 16 KiB.
#[test]
fn large_records_are_swept() {
    let mut world = World::new(4, 16);
    assert_eq!(world.attach(0), Ok(()));
    for (root, fields) in [4095, 4095, 2047, 2047, 1024, 1024].into_iter().enumerate() {
        assert_eq!(world.make(0, root as u32, fields, 0), Ok(()));
    }
    assert_eq!(world.store(0, 0, 4094, 2), Ok(()));
    for root in [1, 2, 4, 5] {
        assert_eq!(world.clear(0, root), Ok(()));
    }
    for (segment, state) in [[FULL, 14, 1, 0], [FULL, 14, 1, 0], [FULL, 13, 2, 0], [FULL, 13, 2, 0]].into_iter().enumerate() {
        assert_eq!(world.state(segment), state);
    }
    assert_eq!(world.clear(0, 3), Ok(()));
    assert_eq!(world.start(), Ok(()));
    world.play_to_mark(&[0]);
    assert_eq!(world.trace_all(), 2);
    for (segment, freed) in [0, 1, 1, 2].into_iter().enumerate() {
        assert_eq!(world.step(), Ok(Step::Swept { segment: segment as u32, freed }));
    }
    assert_eq!(world.step(), Ok(Step::Done));
    for (segment, state) in [[FULL, 14, 1, 0], [FREE, 0, 0, 0], [PART, 13, 0, 0], [FREE, 0, 0, 0]].into_iter().enumerate() {
        assert_eq!(world.state(segment), state);
    }
    assert_eq!(world.make(0, 7, 0, 2047), Ok(()));
    assert_eq!(world.state(2), [FULL, 13, 2, 0]);
    assert_eq!(world.make(0, 8, 0, 2048), Ok(()));
    assert_eq!(world.state(3), [FULL, 14, 1, 0]);
}

/// At 32 KiB the largest class has two blocks: one is held with its first, swept to part where one is reached, and taken again.
#[test]
fn two_of_the_largest_class() {
    let mut world = World::new(2, 32);
    assert_eq!(world.attach(0), Ok(()));
    assert_eq!(world.make(0, 0, 4095, 0), Ok(()));
    assert_eq!(world.state(0), [HELD, 14, 1, 0]);
    assert_eq!(world.make(0, 1, 0, 2048), Ok(()));
    assert_eq!(world.state(0), [FULL, 14, 2, 0]);
    assert_eq!(world.store(0, 0, 4094, 0), Ok(()));
    assert_eq!(world.clear(0, 1), Ok(()));
    assert_eq!(world.start(), Ok(()));
    world.play_to_mark(&[0]);
    assert_eq!(world.trace_all(), 1);
    assert_eq!(world.step(), Ok(Step::Swept { segment: 0, freed: 1 }));
    assert_eq!(world.step(), Ok(Step::Done));
    assert_eq!(world.state(0), [PART, 14, 0, 0]);
    assert_eq!(world.make(0, 1, 0, 4095), Ok(()));
    assert_eq!(world.state(0), [FULL, 14, 2, 0]);
    assert_eq!(world.state(1), [FREE, 0, 0, 0]);
}

/// Every seventh record of a full segment of class 3, in a list, survives a cycle; the rest of the segment is freed and used again.
#[test]
fn sparse_survivors() {
    for (kib, blocks) in [(16, 2048), (32, 4096)] {
        let live = u32::div_ceil(blocks, 7);
        let mut world = World::new(3, kib);
        assert_eq!(world.attach(0), Ok(()));
        let mem = &mut world.mem;
        for made in 0..blocks {
            independent::make(3, kib, mem, 0, 1, 1, 0).expect("room");
            if made % 7 == 0 {
                independent::store(3, kib, mem, 0, 1, 0, 0).expect("a pointer");
                independent::copy(3, kib, mem, 0, 0, 1).expect("two roots");
            }
        }
        assert_eq!(world.clear(0, 1), Ok(()));
        assert_eq!(world.state(0), [FULL, 3, blocks, 0]);
        assert_eq!(world.start(), Ok(()));
        world.play_to_mark(&[0]);
        assert_eq!(world.trace_all(), live);
        assert_eq!(world.step(), Ok(Step::Swept { segment: 0, freed: blocks - live }));
        assert_eq!(world.step(), Ok(Step::Done));
        for _ in 0..blocks - live {
            assert_eq!(independent::make(3, kib, &mut world.mem, 0, 1, 0, 1), Ok(()));
        }
        world.examine();
        assert_eq!(world.state(0), [FULL, 3, blocks, 0]);
        assert_eq!(world.state(1), [FREE, 0, 0, 0]);
    }
}

/// A full segment of class 3, all of it one list: every block is traced, the last one too, and kept; then all become free.
#[test]
fn every_block_of_the_smallest_class() {
    for (kib, blocks) in [(16, 2048), (32, 4096)] {
        let mut world = World::new(1, kib);
        assert_eq!(world.attach(0), Ok(()));
        for _ in 0..blocks {
            let mem = &mut world.mem;
            independent::make(1, kib, mem, 0, 1, 1, 0).expect("room");
            independent::store(1, kib, mem, 0, 1, 0, 0).expect("a pointer");
            independent::copy(1, kib, mem, 0, 0, 1).expect("two roots");
        }
        for (traced, freed) in [(blocks, 0), (0, blocks)] {
            assert_eq!(world.start(), Ok(()));
            world.play_to_mark(&[0]);
            let mut steps = 0;
            while independent::step(1, kib, &mut world.mem) == Ok(Step::Traced) {
                steps += 1;
            }
            assert_eq!(steps, traced);
            world.examine();
            assert_eq!(world.step(), Ok(Step::Swept { segment: 0, freed }));
            assert_eq!(world.step(), Ok(Step::Done));
            clear_all(&mut world, 0);
        }
        assert_eq!(world.state(0), [FREE, 0, 0, 0]);
    }
}
