//! Records, roots and segments outside a cycle.

mod common;

use common::{World, SIZES};
use independent::{Refusal, Shape, FREE, FULL, HELD, PART};

#[test]
fn shapes_and_fields() {
    for kib in SIZES {
        let mut world = World::new(4, kib);
        assert_eq!(world.attach(31), Ok(()));
        for (root, (pointers, values)) in [(0, 0), (0, 1), (1, 1), (3, 4), (8, 8), (1023, 0), (500, 523)].into_iter().enumerate() {
            let root = root as u32;
            if world.make(31, root, pointers, values).is_err() {
                continue;
            }
            assert_eq!(world.shape(31, root), Ok(Shape { pointers, values }));
            for field in 0..pointers {
                assert_eq!(world.load(31, 15, root, field), Ok(()));
                assert_eq!(world.same(31, 15, 14), Ok(true));
            }
            for field in 0..values {
                assert_eq!(world.get(31, root, field), Ok(0));
            }
        }
    }
}

/// Where classes 13 and 14 begin and end: the first and the last field of each kind.
#[test]
fn large_shapes_and_fields() {
    for kib in SIZES {
        for (pointers, values, class) in [(512, 512, 13), (1000, 1047, 13), (2, 2046, 14), (2000, 2095, 14)] {
            let mut world = World::new(2, kib);
            assert_eq!(world.attach(3), Ok(()));
            assert_eq!(world.make(3, 0, pointers, values), Ok(()));
            assert_eq!(world.state(0)[1], class);
            assert_eq!(world.shape(3, 0), Ok(Shape { pointers, values }));
            assert_eq!(world.make(3, 1, 0, 0), Ok(()));
            for field in [0, pointers - 1] {
                assert_eq!(world.load(3, 2, 0, field), Ok(()));
                assert_eq!(world.same(3, 2, 15), Ok(true));
                assert_eq!(world.store(3, 0, field, 1), Ok(()));
                assert_eq!(world.load(3, 2, 0, field), Ok(()));
                assert_eq!(world.same(3, 2, 1), Ok(true));
            }
            for field in [0, values - 1] {
                assert_eq!(world.get(3, 0, field), Ok(0));
                assert_eq!(world.put(3, 0, field, field + 7), Ok(()));
                assert_eq!(world.get(3, 0, field), Ok(field + 7));
            }
            assert_eq!(world.load(3, 2, 0, pointers), Err(Refusal::FIELD));
            assert_eq!(world.get(3, 0, values), Err(Refusal::FIELD));
        }
    }
}

#[test]
fn stores_and_loads() {
    for kib in SIZES {
        let mut world = World::new(1, kib);
        assert_eq!(world.attach(0), Ok(()));
        for root in 0..3 {
            assert_eq!(world.make(0, root, 3, 2), Ok(()));
        }
        assert_eq!(world.store(0, 0, 0, 1), Ok(()));
        assert_eq!(world.store(0, 0, 2, 2), Ok(()));
        assert_eq!(world.store(0, 0, 1, 0), Ok(()));
        assert_eq!(world.put(0, 0, 0, u32::MAX), Ok(()));
        assert_eq!(world.put(0, 0, 1, 6), Ok(()));
        for (field, root) in [(0, 1), (1, 0), (2, 2)] {
            assert_eq!(world.load(0, 9, 0, field), Ok(()));
            assert_eq!(world.same(0, 9, root), Ok(true));
        }
        assert_eq!(world.get(0, 0, 0), Ok(u32::MAX));
        assert_eq!(world.get(0, 0, 1), Ok(6));
        assert_eq!(world.same(0, 0, 1), Ok(false));
        assert_eq!(world.same(0, 0, 12), Ok(false));
        assert_eq!(world.copy(0, 12, 0), Ok(()));
        assert_eq!(world.same(0, 0, 12), Ok(true));
        assert_eq!(world.copy(0, 12, 13), Ok(()));
        assert_eq!(world.same(0, 13, 12), Ok(true));
    }
}

#[test]
fn spawn_copies_one_root() {
    for kib in SIZES {
        let mut world = World::new(1, kib);
        assert_eq!(world.attach(2), Ok(()));
        assert_eq!(world.make(2, 7, 0, 1), Ok(()));
        assert_eq!(world.put(2, 7, 0, 41), Ok(()));
        assert_eq!(world.spawn(3, 2, 7), Ok(()));
        assert_eq!(world.get(3, 0, 0), Ok(41));
        assert_eq!(world.same(3, 7, 1), Ok(true));
    }
}

/// Segment 0 comes off first; a place lies just past the last block made; a detached mutator's segments keep it.
#[test]
fn segments_and_places() {
    for kib in SIZES {
        let mut world = World::new(3, kib);
        assert_eq!(world.attach(0), Ok(()));
        assert_eq!(world.make(0, 0, 0, 1), Ok(()));
        assert_eq!(world.make(0, 0, 0, 0), Ok(()));
        assert_eq!(world.make(0, 0, 1, 1), Ok(()));
        assert_eq!(world.state(0), [HELD, 3, 2, 0]);
        assert_eq!(world.state(1), [HELD, 4, 1, 0]);
        assert_eq!(world.state(2), [FREE, 0, 0, 0]);
        assert_eq!(world.detach(0), Ok(()));
        assert_eq!(world.state(0), [PART, 3, 2, 0]);
        assert_eq!(world.state(1), [PART, 4, 1, 0]);
        assert_eq!(world.attach(9), Ok(()));
        assert_eq!(world.make(9, 0, 1, 1), Ok(()));
        assert_eq!(world.state(1), [HELD, 4, 2, 9]);
    }
}

/// A detach hands back a segment of each class in which a block is left: twelve at 32 KiB, and eleven at 16, where that of class 14 is full
/// from its first block.
#[test]
fn a_detach_hands_back_eleven_or_twelve() {
    for kib in SIZES {
        let full = |class| kib == 16 && class == 14;
        let mut world = World::new(12, kib);
        assert_eq!(world.attach(5), Ok(()));
        for class in 3..=14_u32 {
            assert_eq!(world.make(5, class, 0, (1 << (class - 2)) - 1), Ok(()));
            let expected = if full(class) { [FULL, 14, 1, 0] } else { [HELD, class, 1, 5] };
            assert_eq!(world.state(class as usize - 3), expected);
        }
        assert_eq!(world.detach(5), Ok(()));
        for class in 3..=14_u32 {
            let expected = if full(class) { [FULL, 14, 1, 0] } else { [PART, class, 1, 0] };
            assert_eq!(world.state(class as usize - 3), expected);
        }
    }
}

/// The last part segment put on its stack is the first taken.
#[test]
fn part_stack_order() {
    for kib in SIZES {
        let mut world = World::new(3, kib);
        for mutator in 0..3 {
            assert_eq!(world.attach(mutator), Ok(()));
            assert_eq!(world.make(mutator, 0, 0, 0), Ok(()));
        }
        for mutator in [2, 0, 1] {
            assert_eq!(world.detach(mutator), Ok(()));
        }
        for (mutator, segment) in [(4, 1), (5, 0), (6, 2)] {
            assert_eq!(world.attach(mutator), Ok(()));
            assert_eq!(world.make(mutator, 0, 0, 0), Ok(()));
            assert_eq!(world.state(segment), [HELD, 3, 2, mutator]);
        }
    }
}

#[test]
fn a_segment_of_each_class_fills() {
    for kib in SIZES {
        for class in 3..=14_u32 {
            let mut world = World::new(1, kib);
            assert_eq!(world.attach(0), Ok(()));
            let blocks = (1024 * kib) >> class;
            for made in 0..blocks {
                assert_eq!(independent::make(1, kib, &mut world.mem, 0, 0, 0, (1 << (class - 2)) - 1), Ok(()));
                let expected = if made + 1 == blocks { [FULL, class, blocks, 0] } else { [HELD, class, made + 1, 0] };
                assert_eq!(world.state(0), expected);
            }
            world.examine();
        }
    }
}
