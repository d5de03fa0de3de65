//! Request No. 5: part segments are condemned and swept too. Each has four blocks but where the case says another class.

mod common;

use common::{World, SIZES};
use independent::{Refusal, Step, CONDEMNED, FREE, FULL, HELD, PART};

/// So many segments, segment 0 part with the records of blocks 0 to 2: each points to the one before it. Mutator 1 is inside, and its root 0
/// has one of them, or nil.
fn part(kib: u32, segments: u32, block: Option<u32>) -> World {
    let mut world = World::new(segments, kib);
    assert_eq!(world.attach(0), Ok(()));
    for root in 0..3 {
        assert_eq!(world.make_quarter(0, root), Ok(()));
        assert_eq!(world.store(0, root, 0, root.wrapping_sub(1) % 16), Ok(()));
    }
    assert_eq!(world.spawn(1, 0, block.unwrap_or(9)), Ok(()));
    assert_eq!(world.detach(0), Ok(()));
    assert_eq!(world.state(0), [PART, world.quarter(), 3, 0]);
    world
}

/// Steps of sweep: what is swept, until the cycle is done.
fn sweep_all(world: &mut World) -> Vec<(u32, u32)> {
    let mut swept = Vec::new();
    loop {
        match world.step() {
            Ok(Step::Swept { segment, freed }) => swept.push((segment, freed)),
            Ok(Step::Done) => return swept,
            other => panic!("{other:?} in sweep"),
        }
    }
}

/// Class, place and counts stay, and no make takes it.
#[test]
fn condemned() {
    for kib in SIZES {
        let mut world = part(kib, 2, None);
        assert_eq!(world.counts(0), [0, 3]);
        assert_eq!(world.start(), Ok(()));
        assert_eq!(world.state(0), [CONDEMNED, world.quarter(), 3, 0]);
        assert_eq!(world.counts(0), [0, 3]);
        assert_eq!(world.make_quarter(1, 0), Ok(()));
        assert_eq!(world.state(0), [CONDEMNED, world.quarter(), 3, 0]);
        assert_eq!(world.state(1), [HELD, world.quarter(), 1, 1]);
    }
}

/// All dead: free, and the three blocks in use are those freed, not all four.
#[test]
fn swept_to_free() {
    for kib in SIZES {
        let mut world = part(kib, 1, None);
        assert_eq!(world.start(), Ok(()));
        world.play_to_mark(&[1]);
        assert_eq!(world.trace_all(), 0);
        assert_eq!(sweep_all(&mut world), [(0, 3)]);
        assert_eq!(world.state(0), [FREE, 0, 0, 0]);
        assert_eq!(world.counts(0), [0, 0]);
    }
}

/// Blocks 0 and 1 are reached: part, place 0, and the next makes get blocks 2 and 3.
#[test]
fn swept_to_part() {
    for kib in SIZES {
        let mut world = part(kib, 1, Some(1));
        assert_eq!(world.start(), Ok(()));
        world.play_to_mark(&[1]);
        assert_eq!(world.trace_all(), 2);
        assert_eq!(sweep_all(&mut world), [(0, 1)]);
        assert_eq!(world.state(0), [PART, world.quarter(), 0, 0]);
        assert_eq!(world.counts(0), [2, 0]);
        assert_eq!(world.make_quarter(1, 1), Ok(()));
        assert_eq!(world.state(0), [HELD, world.quarter(), 3, 1]);
        assert_eq!(world.make_quarter(1, 2), Ok(()));
        assert_eq!(world.state(0), [FULL, world.quarter(), 4, 0]);
    }
}

/// All three are reached: part again, never full, as a block is not in use and so not marked.
#[test]
fn never_to_full() {
    for kib in SIZES {
        let mut world = part(kib, 1, Some(2));
        for _ in 0..2 {
            assert_eq!(world.start(), Ok(()));
            world.play_to_mark(&[1]);
            assert_eq!(world.trace_all(), 3);
            assert_eq!(sweep_all(&mut world), [(0, 0)]);
            assert_eq!(world.state(0), [PART, world.quarter(), 0, 0]);
            assert_eq!(world.counts(0), [3, 0]);
        }
    }
}

/// The lowest is swept first, so the highest ends on top of its stack; before the start the lowest was there.
#[test]
fn last_swept_on_top() {
    for kib in SIZES {
        let mut world = World::new(2, kib);
        for mutator in 0..2 {
            assert_eq!(world.attach(mutator), Ok(()));
            assert_eq!(world.make_quarter(mutator, 0), Ok(()));
            assert_eq!(world.spawn(2 + mutator, mutator, 0), Ok(()));
        }
        assert_eq!(world.detach(1), Ok(()));
        assert_eq!(world.detach(0), Ok(()));
        assert_eq!(world.start(), Ok(()));
        world.play_to_mark(&[2, 3]);
        assert_eq!(world.trace_all(), 2);
        assert_eq!(sweep_all(&mut world), [(0, 0), (1, 0)]);
        assert_eq!(world.make_quarter(2, 1), Ok(()));
        assert_eq!(world.state(0), [PART, world.quarter(), 0, 0]);
        assert_eq!(world.state(1), [HELD, world.quarter(), 2, 2]);
    }
}

/// One swept to part goes on top of one that a detach made part in mark.
#[test]
fn on_top_of_one_that_is_part() {
    for kib in SIZES {
        let mut world = part(kib, 2, Some(0));
        assert_eq!(world.attach(0), Ok(()));
        assert_eq!(world.start(), Ok(()));
        assert_eq!(world.make_quarter(0, 0), Ok(()));
        world.play_to_mark(&[0, 1]);
        assert_eq!(world.detach(0), Ok(()));
        assert_eq!(world.state(1), [PART, world.quarter(), 1, 0]);
        assert_eq!(world.trace_all(), 2);
        assert_eq!(sweep_all(&mut world), [(0, 2)]);
        assert_eq!(world.make_quarter(1, 1), Ok(()));
        assert_eq!(world.state(0), [HELD, world.quarter(), 2, 1]);
        assert_eq!(world.state(1), [PART, world.quarter(), 1, 0]);
    }
}

/// What a detach makes part in mark or in sweep is for the next cycle.
#[test]
fn part_during_the_cycle() {
    for kib in SIZES {
        let mut world = World::new(3, kib);
        assert_eq!(world.attach(0), Ok(()));
        assert_eq!(world.attach(1), Ok(()));
        world.fill_segment(0);
        assert_eq!(world.make_quarter(1, 0), Ok(()));
        assert_eq!(world.make(0, 4, 1, 300), Ok(()));
        assert_eq!(world.start(), Ok(()));
        world.play_to_mark(&[0, 1]);
        assert_eq!(world.detach(1), Ok(()));
        assert_eq!(world.state(1), [PART, world.quarter(), 1, 0]);
        assert_eq!(world.trace_all(), 6);
        assert_eq!(world.detach(0), Ok(()));
        assert_eq!(sweep_all(&mut world), [(0, 0)]);
        assert_eq!(world.state(1), [PART, world.quarter(), 1, 0]);
        assert_eq!(world.state(2), [PART, 11, 1, 0]);
        assert_eq!([world.counts(1), world.counts(2)], [[0, 1]; 2]);
        assert_eq!(world.start(), Ok(()));
        world.play_to_mark(&[]);
        assert_eq!(world.trace_all(), 0);
        assert_eq!(sweep_all(&mut world), [(0, 4), (1, 1), (2, 1)]);
    }
}

/// The one segment is condemned: every make is refused 10, of its class and of another, until it is swept.
#[test]
fn no_room_before_the_sweep() {
    for kib in SIZES {
        for fields in [601 * kib / 16, 1] {
            let mut world = part(kib, 1, None);
            let refused = |world: &mut World| assert_eq!(world.make(1, 0, 0, fields), Err(Refusal::NO_ROOM));
            assert_eq!(world.start(), Ok(()));
            for _ in 0..2 {
                refused(&mut world);
                assert_eq!(world.check(1), Ok(()));
                refused(&mut world);
                assert_eq!(world.step(), Ok(Step::Moved));
            }
            refused(&mut world);
            assert_eq!(world.trace_all(), 0);
            refused(&mut world);
            assert_eq!(world.step(), Ok(Step::Swept { segment: 0, freed: 3 }));
            assert_eq!(world.make(1, 0, 0, fields), Ok(()));
            assert_eq!(world.step(), Ok(Step::Done));
        }
    }
}

/// A venue plays long chases after short ones: five short records are dead in the one segment, which is part, and a long one finds no room.
#[test]
fn long_after_short() {
    for kib in SIZES {
        let mut world = World::new(1, kib);
        assert_eq!(world.attach(0), Ok(()));
        for root in 0..5 {
            assert_eq!(world.make(0, root, 1, 0), Ok(()));
        }
        assert_eq!(world.detach(0), Ok(()));
        assert_eq!(world.state(0), [PART, 3, 5, 0]);
        assert_eq!(world.attach(1), Ok(()));
        assert_eq!(world.make(1, 0, 0, 1023), Err(Refusal::NO_ROOM));
        assert_eq!(world.start(), Ok(()));
        world.play_to_mark(&[1]);
        assert_eq!(world.trace_all(), 0);
        assert_eq!(sweep_all(&mut world), [(0, 5)]);
        assert_eq!(world.make(1, 0, 0, 1023), Ok(()));
        assert_eq!(world.state(0), [HELD, 12, 1, 1]);
    }
}

/// Held segments stay as they are, whatever is dead in them: in a cycle that sweeps another, and in one over nothing.
#[test]
fn held_segments_stay() {
    for kib in SIZES {
        let mut world = World::new(2, kib);
        assert_eq!(world.attach(0), Ok(()));
        world.fill_segment(0);
        for swept in [&[(0, 4)][..], &[]] {
            for root in 0..4 {
                assert_eq!(world.clear(0, root), Ok(()));
            }
            if !swept.is_empty() {
                assert_eq!(world.make_quarter(0, 4), Ok(()));
                assert_eq!(world.make_quarter(0, 4), Ok(()));
            }
            assert_eq!(world.start(), Ok(()));
            assert_eq!(world.state(1), [HELD, world.quarter(), 2, 0]);
            world.play_to_mark(&[0]);
            assert_eq!(world.trace_all(), 1);
            assert_eq!(sweep_all(&mut world), swept);
            assert_eq!(world.state(1), [HELD, world.quarter(), 2, 0]);
            assert_eq!(world.counts(1), [0, 2]);
        }
    }
}

/// A condemned segment's place is anything up to its blocks, its counts with it; not more, nor is one condemned in idle.
#[test]
fn places_of_condemned_segments() {
    for kib in SIZES {
        let mut world = part(kib, 1, None);
        assert_eq!(world.start(), Ok(()));
        let at = world.descriptor(0);
        for place in 0..=3 {
            (world.mem[at + 2], world.mem[at + 7]) = (place, place);
            world.examine();
            world.mem[at + 7] = place + 1;
            assert!(!world.consistent());
        }
        for handed_out in 3..6 {
            for place in [5, 6, 2048, 2049, 4096, 4097, u32::MAX] {
                (world.mem[at + 2], world.mem[at + 7]) = (place, handed_out);
                assert!(!world.consistent(), "place {place}");
            }
        }
        let mut world = part(kib, 1, None);
        world.mem[at] = CONDEMNED;
        assert!(!world.consistent());
    }
}

/// In sweep, marks of a condemned segment are of blocks in use: blocks 0 to 2 here.
#[test]
fn marks_of_condemned_segments() {
    for kib in SIZES {
        let mut world = part(kib, 1, Some(2));
        assert_eq!(world.start(), Ok(()));
        world.play_to_mark(&[1]);
        assert_eq!(world.trace_all(), 3);
        let marks = world.descriptor(0) + world.marks();
        assert_eq!(world.mem[marks], 7);
        for bit in 3..32 {
            world.mem[marks] = 7 | 1 << bit;
            assert!(!world.consistent(), "bit {bit}");
        }
    }
}
