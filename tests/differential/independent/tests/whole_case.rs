//! Document 01's whole case, through the functions; at 32 KiB with records that are twice as long.

mod common;

use common::{World, SIZES};
use independent::{Step, CONDEMNED, FREE, FULL, PART};

#[test]
fn whole_case() {
    for kib in SIZES {
        let mut world = World::new(2, kib);
        assert_eq!(world.attach(0), Ok(()));
        world.fill_segment(0);
        assert_eq!(world.store(0, 0, 0, 1), Ok(()));
        assert_eq!(world.put(0, 1, 0, 77), Ok(()));
        assert_eq!(world.clear(0, 1), Ok(()));
        assert_eq!(world.clear(0, 2), Ok(()));
        assert_eq!(world.state(0), [FULL, world.quarter(), 4, 0]);
        assert_eq!(world.start(), Ok(()));
        assert_eq!(world.state(0), [CONDEMNED, world.quarter(), 4, 0]);
        assert_eq!(world.step(), Ok(Step::Waiting(1)));
        assert_eq!(world.check(0), Ok(()));
        assert_eq!(world.step(), Ok(Step::Moved));
        assert_eq!(world.check(0), Ok(()));
        assert_eq!(world.step(), Ok(Step::Moved));
        for _ in 0..3 {
            assert_eq!(world.step(), Ok(Step::Traced));
        }
        assert_eq!(world.step(), Ok(Step::Moved));
        assert_eq!(world.step(), Ok(Step::Swept { segment: 0, freed: 1 }));
        assert_eq!(world.step(), Ok(Step::Done));
        assert_eq!(world.load(0, 1, 0, 0), Ok(()));
        assert_eq!(world.get(0, 1, 0), Ok(77));
        assert_eq!(world.state(0), [PART, world.quarter(), 0, 0]);
        assert_eq!(world.state(1), [FREE, 0, 0, 0]);
        assert_eq!(world.step(), Ok(Step::Idle));
    }
}

/// The part segment's one free block is block 2: it is taken, and the segment is full again.
#[test]
fn after_the_whole_case() {
    for kib in SIZES {
        let mut world = World::new(2, kib);
        assert_eq!(world.attach(0), Ok(()));
        world.fill_segment(0);
        assert_eq!(world.clear(0, 2), Ok(()));
        assert_eq!(world.start(), Ok(()));
        world.play_to_mark(&[0]);
        assert_eq!(world.trace_all(), 3);
        assert_eq!(world.step(), Ok(Step::Swept { segment: 0, freed: 1 }));
        assert_eq!(world.step(), Ok(Step::Done));
        assert_eq!(world.make_quarter(0, 2), Ok(()));
        assert_eq!(world.state(0), [FULL, world.quarter(), 4, 0]);
    }
}
