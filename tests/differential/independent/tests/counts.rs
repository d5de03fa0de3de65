//! Request No. 3: the two counts of a segment by calls, what the examination asks of them, and the totals that they stand for.

mod common;

use common::{World, SIZES};
use independent::{Step, CONDEMNED, FREE, FULL, HELD, PART};

/// A record of so many values, which the root then names.
fn make(world: &mut World, root: u32, values: u32) {
    assert_eq!(world.make(0, root, 1, values), Ok(()));
}

/// A whole cycle in which mutator 0 checks whenever it owes: what it swept.
fn cycle(world: &mut World) -> Vec<(u32, u32)> {
    assert_eq!(world.start(), Ok(()));
    world.play_to_mark(&[0]);
    world.trace_all();
    let mut swept = Vec::new();
    while let Ok(Step::Swept { segment, freed }) = world.step() {
        swept.push((segment, freed));
    }
    swept
}

#[test]
fn an_opening_leaves_none() {
    for kib in SIZES {
        let world = World::new(3, kib);
        for segment in 0..3 {
            assert_eq!(world.counts(segment), [0, 0]);
        }
    }
}

/// A make adds one, also where it fills the segment; who holds the segment and a start change nothing.
#[test]
fn makes_are_counted() {
    for kib in SIZES {
        let mut world = World::new(2, kib);
        assert_eq!(world.attach(0), Ok(()));
        for made in 1..=3 {
            assert_eq!(world.make_quarter(0, made), Ok(()));
            assert_eq!(world.counts(0), [0, made]);
        }
        assert_eq!(world.spawn(1, 0, 1), Ok(()));
        assert_eq!(world.detach(0), Ok(()));
        assert_eq!(world.states()[0], [PART, world.quarter(), 3, 0, 0, 3]);
        assert_eq!(world.make_quarter(1, 4), Ok(()));
        assert_eq!(world.states()[0], [FULL, world.quarter(), 4, 0, 0, 4]);
        assert_eq!(world.start(), Ok(()));
        assert_eq!(world.states()[0], [CONDEMNED, world.quarter(), 4, 0, 0, 4]);
        assert_eq!(world.counts(1), [0, 0]);
    }
}

/// A part segment of four blocks, three of them handed out, is condemned with its counts; the one that is reached is kept.
#[test]
fn counts_of_a_part_segment() {
    for kib in SIZES {
        let mut world = World::new(1, kib);
        assert_eq!(world.attach(0), Ok(()));
        for root in 0..3 {
            assert_eq!(world.make_quarter(0, root), Ok(()));
        }
        assert_eq!(world.spawn(1, 0, 2), Ok(()));
        assert_eq!(world.detach(0), Ok(()));
        assert_eq!(world.attach(0), Ok(()));
        assert_eq!(world.leave(1), Ok(()));
        assert_eq!(world.start(), Ok(()));
        assert_eq!(world.states()[0], [CONDEMNED, world.quarter(), 3, 0, 0, 3]);
        world.play_to_mark(&[0]);
        assert_eq!(world.trace_all(), 1);
        assert_eq!(world.step(), Ok(Step::Swept { segment: 0, freed: 2 }));
        assert_eq!(world.states()[0], [PART, world.quarter(), 0, 0, 1, 0]);
    }
}

/// A segment of four blocks is swept to part, to full and to free, and then taken by another class.
#[test]
fn sweeps_set_both() {
    for kib in SIZES {
        let mut world = World::new(1, kib);
        assert_eq!(world.attach(0), Ok(()));
        world.fill_segment(0);
        assert_eq!(world.clear(0, 2), Ok(()));
        assert_eq!(cycle(&mut world), [(0, 1)]);
        assert_eq!(world.states()[0], [PART, world.quarter(), 0, 0, 3, 0]);
        assert_eq!(world.make_quarter(0, 2), Ok(()));
        assert_eq!(world.states()[0], [FULL, world.quarter(), 4, 0, 3, 1]);
        assert_eq!(cycle(&mut world), [(0, 0)]);
        assert_eq!(world.states()[0], [FULL, world.quarter(), 4, 0, 4, 0]);
        for root in 0..4 {
            assert_eq!(world.clear(0, root), Ok(()));
        }
        assert_eq!(cycle(&mut world), [(0, 4)]);
        assert_eq!(world.states()[0], [FREE, 0, 0, 0, 0, 0]);
        make(&mut world, 0, 0);
        assert_eq!(world.states()[0], [HELD, 3, 1, 0, 0, 1]);
    }
}

/// All blocks handed out, less all freed, are the sum of the counts.
#[test]
fn totals() {
    for kib in SIZES {
        let mut world = World::new(4, kib);
        assert_eq!(world.attach(0), Ok(()));
        let (mut made, mut freed) = (0, 0);
        for round in 0..12 {
            for root in 0..16 {
                made += u32::from(world.make(0, root, 1, [600, 300, 2000][(root + round) as usize % 3]).is_ok());
            }
            for root in (0..16).filter(|root| (root * 7 + round) % 3 != 0) {
                assert_eq!(world.clear(0, root), Ok(()));
            }
            freed += cycle(&mut world).into_iter().map(|(_, freed)| freed).sum::<u32>();
            let counted: u32 = (0..4).map(|segment| world.counts(segment).into_iter().sum::<u32>()).sum();
            assert_eq!(made - freed, counted);
        }
        assert!(made > 40 && freed > 20, "{made} made, {freed} freed");
    }
}

/// Any other count fails the examination, in a free, a part, a held, a full and a condemned segment; the look shows it all the same.
#[test]
fn other_counts_fail() {
    for kib in SIZES {
        let mut world = World::new(5, kib);
        assert_eq!(world.attach(0), Ok(()));
        world.fill_segment(0);
        assert_eq!(world.clear(0, 1), Ok(()));
        assert_eq!(cycle(&mut world), [(0, 1)]);
        for class in [11_u32, 10, 9] {
            make(&mut world, 4 + class - 9, (1 << (class - 2)) - 2);
        }
        assert_eq!(world.detach(0), Ok(()));
        assert_eq!(world.attach(0), Ok(()));
        make(&mut world, 0, 126);
        world.fill_segment(0);
        tear_all(&mut world, [FULL, PART, PART, HELD, HELD]);
        assert_eq!(world.start(), Ok(()));
        tear_all(&mut world, [CONDEMNED, CONDEMNED, CONDEMNED, HELD, HELD]);
        let mut world = World::new(2, kib);
        assert_eq!(world.attach(0), Ok(()));
        world.fill_segment(0);
        tear(&mut world, 0);
        tear(&mut world, 1);
    }
}

/// Those of all five segments, which are in these states.
fn tear_all(world: &mut World, states: [u32; 5]) {
    for (segment, state) in states.into_iter().enumerate() {
        assert_eq!(world.state(segment)[0], state);
        tear(world, segment);
    }
}

/// Each of the two counts of a segment becomes other numbers.
fn tear(world: &mut World, segment: usize) {
    for word in 6..8 {
        let at = world.descriptor(segment) + word;
        let right = world.mem[at];
        for wrong in [0, 1, right.wrapping_sub(1), right + 1, 2048, 2049, 4096, 4097, 1 << 31, u32::MAX] {
            world.mem[at] = wrong;
            assert_eq!(world.consistent(), wrong == right, "segment {segment}, word {word}: {wrong}");
            assert_eq!(world.counts(segment)[word - 6], wrong);
        }
        world.mem[at] = right;
        world.examine();
    }
}
