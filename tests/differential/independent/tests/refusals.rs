//! Each refusal number, and that the lowest that applies is given.

mod common;

use common::{World, SIZES};
use independent::{Refusal, Step};

fn world(kib: u32) -> World {
    let mut world = World::new(1, kib);
    assert_eq!(world.attach(0), Ok(()));
    world
}

/// The calls that show a wrong count, size or length: all refused 1, and nothing changes.
fn refused(segments: u32, kib: u32, mem: &mut [u32]) {
    let before = mem.to_vec();
    assert_eq!(independent::open(segments, kib, mem), Err(Refusal::SIZE));
    assert_eq!(independent::attach(segments, kib, mem, 99), Err(Refusal::SIZE));
    assert_eq!(independent::make(segments, kib, mem, 0, 0, 1, 0), Err(Refusal::SIZE));
    assert_eq!(independent::start(segments, kib, mem), Err(Refusal::SIZE));
    assert_eq!(independent::step(segments, kib, mem), Err(Refusal::SIZE));
    assert_eq!(independent::phase(segments, kib, mem), Err(Refusal::SIZE));
    let (mut output, mut scratch) = (vec![9; independent::states_length(segments, kib)], vec![9; independent::scratch_length(segments, kib)]);
    assert_eq!(independent::states(segments, kib, mem, &mut output), Err(Refusal::SIZE));
    assert_eq!(independent::examine(segments, kib, mem, &mut scratch), Err(Refusal::SIZE));
    assert!(before == mem && output.iter().chain(&scratch).all(|word| *word == 9));
}

#[test]
fn size() {
    for kib in SIZES {
        let mut mem = vec![9; independent::length(2, kib)];
        for count in [0, 1, 3, 256, 257, u32::MAX] {
            refused(count, kib, &mut mem);
        }
        for other in [0, 1, 15, 17, 31, 33, 48, 64, 16384, 32768, u32::MAX, 48 - kib] {
            refused(2, other, &mut mem);
        }
        for count in [1, 2, 4, 256] {
            refused(count, 48 - kib, &mut mem);
        }
        assert!((1..=256).all(|count| independent::length(count, 48 - kib) != mem.len()));
        refused(0, kib, &mut []);
        assert_eq!(independent::open(2, kib, &mut mem), Ok(()));
        refused(2, kib, &mut mem[1..]);
        assert_eq!(independent::states(2, kib, &mem, &mut [0; 8]), Err(Refusal::SIZE));
        assert_eq!(independent::examine(2, kib, &mem, &mut [0; 7]), Err(Refusal::SIZE));
        let mut other = vec![0; independent::scratch_length(2, 48 - kib)];
        assert_eq!(independent::examine(2, kib, &mem, &mut other), Err(Refusal::SIZE));
    }
}

#[test]
fn lengths() {
    for (count, kib) in [(0, 16), (257, 16), (u32::MAX, 32), (0, 32), (1, 0), (1, 48), (256, 64), (2, u32::MAX)] {
        assert_eq!(independent::length(count, kib), 0);
        assert_eq!(independent::states_length(count, kib), 0);
        assert_eq!(independent::scratch_length(count, kib), 0);
    }
    assert_eq!([16, 32].map(|kib| independent::length(3, kib)), [6346 * 3 + 1040, 12_684 * 3 + 1040]);
    assert_eq!([16, 32].map(|kib| independent::states_length(256, kib)), [1536, 1536]);
    assert_eq!([16, 32].map(|kib| independent::scratch_length(256, kib)), [2176 * 256, 4352 * 256]);
}

#[test]
fn script() {
    for kib in SIZES {
        let mut world = world(kib);
        assert_eq!(world.attach(32), Err(Refusal::SCRIPT));
        assert_eq!(world.spawn(0, 32, 0), Err(Refusal::SCRIPT));
        assert_eq!(world.spawn(32, 0, 0), Err(Refusal::SCRIPT));
        assert_eq!(world.make(u32::MAX, 16, 4096, 0), Err(Refusal::SCRIPT));
    }
}

#[test]
fn taken() {
    for kib in SIZES {
        let mut world = world(kib);
        assert_eq!(world.attach(0), Err(Refusal::TAKEN));
        assert_eq!(world.spawn(0, 5, 16), Err(Refusal::TAKEN));
        assert_eq!(world.leave(0), Ok(()));
        assert_eq!(world.attach(0), Err(Refusal::TAKEN));
    }
}

#[test]
fn absent() {
    for kib in SIZES {
        let mut world = world(kib);
        assert_eq!(world.detach(1), Err(Refusal::ABSENT));
        assert_eq!(world.spawn(1, 1, 16), Err(Refusal::ABSENT));
        assert_eq!(world.clear(1, 16), Err(Refusal::ABSENT));
        assert_eq!(world.make(1, 16, 4096, 0), Err(Refusal::ABSENT));
        assert_eq!(world.enter(1), Err(Refusal::ABSENT));
    }
}

#[test]
fn side() {
    for kib in SIZES {
        let mut world = world(kib);
        assert_eq!(world.enter(0), Err(Refusal::SIDE));
        assert_eq!(world.leave(0), Ok(()));
        assert_eq!(world.leave(0), Err(Refusal::SIDE));
        assert_eq!(world.check(0), Err(Refusal::SIDE));
        assert_eq!(world.detach(0), Err(Refusal::SIDE));
        assert_eq!(world.spawn(1, 0, 16), Err(Refusal::SIDE));
        assert_eq!(world.same(0, 16, 0), Err(Refusal::SIDE));
        assert_eq!(world.make(0, 16, 4096, 0), Err(Refusal::SIDE));
        assert_eq!(world.enter(0), Ok(()));
    }
}

#[test]
fn slot() {
    for kib in SIZES {
        let mut world = world(kib);
        assert_eq!(world.copy(0, 16, 0), Err(Refusal::SLOT));
        assert_eq!(world.copy(0, 0, 16), Err(Refusal::SLOT));
        assert_eq!(world.load(0, 16, 0, 0), Err(Refusal::SLOT));
        assert_eq!(world.store(0, 0, 0, u32::MAX), Err(Refusal::SLOT));
        assert_eq!(world.make(0, 16, u32::MAX, u32::MAX), Err(Refusal::SLOT));
        assert_eq!(world.make(0, 16, 4096, 0), Err(Refusal::SLOT));
        assert_eq!(world.spawn(1, 0, 16), Err(Refusal::SLOT));
    }
}

#[test]
fn dark() {
    for kib in SIZES {
        let mut world = world(kib);
        assert_eq!(world.load(0, 0, 1, 0), Err(Refusal::DARK));
        assert_eq!(world.store(0, 1, 0, 0), Err(Refusal::DARK));
        assert_eq!(world.put(0, 1, 0, 0), Err(Refusal::DARK));
        assert_eq!(world.get(0, 1, 0), Err(Refusal::DARK));
        assert_eq!(world.shape(0, 1), Err(Refusal::DARK));
    }
}

#[test]
fn field() {
    for kib in SIZES {
        let mut world = world(kib);
        assert_eq!(world.make(0, 0, 2, 3), Ok(()));
        assert_eq!(world.load(0, 1, 0, 2), Err(Refusal::FIELD));
        assert_eq!(world.store(0, 0, u32::MAX, 0), Err(Refusal::FIELD));
        assert_eq!(world.put(0, 0, 3, 1), Err(Refusal::FIELD));
        assert_eq!(world.get(0, 0, u32::MAX), Err(Refusal::FIELD));
        assert_eq!(world.get(0, 0, 2), Ok(0));
    }
}

#[test]
fn too_big() {
    for kib in SIZES {
        let mut world = world(kib);
        for (pointers, values) in [(4096, 0), (0, 4096), (1, 4095), (4095, 1), (2048, 2048), (u32::MAX, 1), (1, u32::MAX), (u32::MAX, u32::MAX)] {
            assert_eq!(world.make(0, 0, pointers, values), Err(Refusal::TOO_BIG));
        }
        assert_eq!(world.make(0, 0, 4095, 0), Ok(()));
    }
}

#[test]
fn no_room() {
    for kib in SIZES {
        let mut world = world(kib);
        world.fill_segment(0);
        assert_eq!(world.make(0, 0, 0, 0), Err(Refusal::NO_ROOM));
        assert_eq!(world.make(0, 0, 0, 1023), Err(Refusal::NO_ROOM));
        assert_eq!(world.make(0, 0, 0, 4095), Err(Refusal::NO_ROOM));
        assert_eq!(world.make(0, 0, 0, 4096), Err(Refusal::TOO_BIG));
    }
}

/// A held segment of another mutator has room, but not for this one.
#[test]
fn no_room_beside_a_held_segment() {
    for kib in SIZES {
        let mut world = world(kib);
        assert_eq!(world.attach(1), Ok(()));
        assert_eq!(world.make(1, 0, 0, 0), Ok(()));
        assert_eq!(world.make(0, 0, 0, 0), Err(Refusal::NO_ROOM));
        assert_eq!(world.detach(1), Ok(()));
        assert_eq!(world.make(0, 0, 0, 0), Ok(()));
        assert_eq!(world.state(0), [independent::HELD, 3, 2, 0]);
    }
}

#[test]
fn not_now() {
    for kib in SIZES {
        let mut world = world(kib);
        world.fill_segment(0);
        assert_eq!(world.start(), Ok(()));
        for _ in 0..2 {
            assert_eq!(world.start(), Err(Refusal::NOT_NOW));
            assert_eq!(world.attach(1), Err(Refusal::NOT_NOW));
            assert_eq!(world.spawn(1, 0, 0), Err(Refusal::NOT_NOW));
            assert_eq!(world.detach(0), Err(Refusal::NOT_NOW));
            assert_eq!(world.check(0), Ok(()));
            assert_eq!(world.step(), Ok(Step::Moved));
        }
        assert_eq!(world.attach(1), Ok(()));
        assert_eq!(world.start(), Err(Refusal::NOT_NOW));
    }
}

/// Memory of any content ends every call; a word that leads out of the memory gives 13.
#[test]
fn torn() {
    for kib in SIZES {
        let mut world = world(kib);
        world.mem[3] = u32::MAX;
        assert!(!world.consistent());
        let answer = independent::load(1, kib, &mut world.mem, 0, 0, 3, 0);
        assert_eq!(answer, Err(Refusal::TORN));
    }
}
