//! Request No. 7: how many steps a cycle takes, by hand, against B + C + 4. Each segment has four blocks.

mod common;

use common::{World, SIZES};
use independent::{Step, CONDEMNED, MARK};

/// A started cycle: the steps that are neither refused nor answered waiting, C, and B once the phase is mark.
#[derive(Debug, PartialEq)]
struct Cycle {
    steps: u32,
    condemned: u32,
    blocks: u32,
}

fn in_use(world: &World) -> u32 {
    world.states().iter().map(|[.., kept, handed_out]| kept + handed_out).sum()
}

fn start(world: &mut World) -> Cycle {
    assert_eq!(world.start(), Ok(()));
    let condemned = world.states().iter().filter(|[state, ..]| *state == CONDEMNED).count() as u32;
    Cycle { steps: 0, condemned, blocks: 0 }
}

impl Cycle {
    fn step(&mut self, world: &mut World) -> Step {
        let step = world.step().expect("not refused");
        self.steps += u32::from(!matches!(step, Step::Waiting(_)));
        if step == Step::Moved && world.phase() == MARK {
            self.blocks = in_use(world);
        }
        assert!(self.steps <= self.blocks + self.condemned + 4);
        step
    }

    /// Both handshakes, mutator 0 alone inside: each waits for it.
    fn to_mark(&mut self, world: &mut World) {
        for _ in 0..2 {
            assert_eq!(self.step(world), Step::Waiting(1));
            assert_eq!(world.check(0), Ok(()));
            assert_eq!(self.step(world), Step::Moved);
        }
    }

    /// The rest of it. Steps, B and C.
    fn finish(mut self, world: &mut World) -> [u32; 3] {
        while self.step(world) != Step::Done {}
        [self.steps, self.blocks, self.condemned]
    }
}

/// Two segments, the first full of four records in roots 0 to 3 of mutator 0.
fn world(kib: u32) -> World {
    let mut world = World::new(2, kib);
    assert_eq!(world.attach(0), Ok(()));
    world.fill_segment(0);
    world
}

fn make(world: &mut World, root: u32) {
    assert_eq!(world.make_quarter(0, root), Ok(()));
}

/// Three of four are reached.
#[test]
fn whole_case() {
    for kib in SIZES {
        let mut world = world(kib);
        assert_eq!(world.store(0, 0, 0, 1), Ok(()));
        assert_eq!(world.clear(0, 1), Ok(()));
        assert_eq!(world.clear(0, 2), Ok(()));
        let mut cycle = start(&mut world);
        cycle.to_mark(&mut world);
        assert_eq!(cycle.finish(&mut world), [8, 4, 1]);
    }
}

/// Every block is reached: as many steps as can be.
#[test]
fn reached_exactly() {
    for kib in SIZES {
        let mut world = world(kib);
        let mut cycle = start(&mut world);
        cycle.to_mark(&mut world);
        assert_eq!(cycle.finish(&mut world), [9, 4, 1]);
    }
}

/// No segment is condemned: the traced ones and four.
#[test]
fn over_nothing() {
    for kib in SIZES {
        for records in 0..4 {
            let mut world = World::new(2, kib);
            assert_eq!(world.attach(0), Ok(()));
            (0..records).for_each(|root| make(&mut world, root));
            let mut cycle = start(&mut world);
            cycle.to_mark(&mut world);
            assert_eq!(cycle.finish(&mut world), [records + 4, records, 0]);
        }
    }
}

/// A part segment is among the condemned ones.
#[test]
fn part_segments_count() {
    for kib in SIZES {
        let mut world = World::new(2, kib);
        assert_eq!(world.attach(0), Ok(()));
        (0..2).for_each(|root| make(&mut world, root));
        assert_eq!(world.spawn(1, 0, 1), Ok(()));
        assert_eq!(world.detach(0), Ok(()));
        assert_eq!(world.leave(1), Ok(()));
        let mut cycle = start(&mut world);
        for _ in 0..2 {
            assert_eq!(cycle.step(&mut world), Step::Moved);
        }
        assert_eq!(cycle.finish(&mut world), [6, 2, 1]);
    }
}

/// Records made in a handshake before the mutator's second acknowledgement are traced: more steps than by the blocks in
/// use at the start. Those made after it, in the second handshake and in mark, are born marked.
#[test]
fn made_meanwhile() {
    for kib in SIZES {
        let mut world = World::new(2, kib);
        assert_eq!(world.attach(0), Ok(()));
        assert_eq!(in_use(&world), 0);
        let mut cycle = start(&mut world);
        make(&mut world, 0);
        assert_eq!(world.check(0), Ok(()));
        assert_eq!(cycle.step(&mut world), Step::Moved);
        make(&mut world, 1);
        assert_eq!(world.check(0), Ok(()));
        make(&mut world, 2);
        assert_eq!(cycle.step(&mut world), Step::Moved);
        make(&mut world, 3);
        assert_eq!(in_use(&world), 4);
        assert_eq!(cycle.finish(&mut world), [6, 3, 0]);
    }
}

/// Pointers put back and forth in mark enter no record twice: four blocks are traced, each once.
#[test]
fn each_traced_once() {
    for kib in SIZES {
        let mut world = world(kib);
        for root in 0..4 {
            assert_eq!(world.store(0, root, 0, (root + 1) % 4), Ok(()));
        }
        let mut cycle = start(&mut world);
        cycle.to_mark(&mut world);
        let mut traced = 0;
        while world.phase() == MARK {
            traced += u32::from(cycle.step(&mut world) == Step::Traced);
            for root in 0..8 {
                assert_eq!(world.store(0, root % 4, 0, (root + traced) % 4), Ok(()));
            }
        }
        assert_eq!(traced, 4);
        assert_eq!(cycle.finish(&mut world), [9, 4, 1]);
    }
}

/// Waiting is answered for the mutators inside that owe, and not for those outside; where none is left, it moves on.
#[test]
fn waits_for_those_inside() {
    for kib in SIZES {
        let mut world = World::new(1, kib);
        for mutator in 0..4 {
            assert_eq!(world.attach(mutator), Ok(()));
        }
        assert_eq!(world.leave(3), Ok(()));
        let mut cycle = start(&mut world);
        for inside in [3, 2] {
            for mutator in 0..inside {
                assert_eq!(cycle.step(&mut world), Step::Waiting(inside - mutator));
                let answer = if mutator == 2 { world.leave(2) } else { world.check(mutator) };
                assert_eq!(answer, Ok(()));
            }
            assert_eq!(cycle.step(&mut world), Step::Moved);
        }
        assert_eq!(cycle.finish(&mut world), [4, 0, 0]);
    }
}
