//! How long a cycle can be, against figures that were reckoned by hand from document 01 and request No. 7; and over
//! lists of calls, where each cycle is done within the bound, and no look before mark says less than there will be.

mod common;

use borvukhai::{Heap, Phase, Refusal, Result, Root, SegmentSize, SegmentState, Segments, Shape, Step, cycle_end};
use common::{SHAPE, fill, id};

type Words = Heap<Vec<u32>>;

/// A heap with mutator 0 inside, in memory that was not 0.
fn opened(count: u32, size: SegmentSize) -> Result<Words> {
    let segments = Segments::new(count).unwrap();
    let mut heap = Heap::open(segments, size, vec![0xa5a5_a5a5; segments.length(size)])?;
    heap.attach(id(0))?;
    Ok(heap)
}

/// What a look says: the blocks in use, the most of them at mark, and the condemned segments.
fn look(heap: &Words) -> Result<(u64, u64, u32)> {
    let mut output = vec![0; heap.segments().states_length()];
    let states = heap.states(&mut output)?;
    Ok((states.blocks_in_use(), states.most_at_mark(), states.condemned()))
}

/// Makes by mutator 0 into these roots, of class 12, of which a segment has four blocks at 16 KiB and eight at 32.
fn make(heap: &mut Words, roots: &[Root]) -> Result<()> {
    roots.iter().try_for_each(|&root| heap.mutator(id(0)).make(root, SHAPE))
}

/// Roots for as many records as fill a segment.
fn roots(size: SegmentSize) -> Vec<Root> {
    Root::all().take(fill(size) as usize).collect()
}

/// The sizes, each with the blocks of class 12 and of class 3.
const SIZES: [(SegmentSize, u64, u64); 2] = [(SegmentSize::Kib16, 4, 2048), (SegmentSize::Kib32, 8, 4096)];

/// A cycle since its start.
struct Cycle {
    /// The steps that are neither refused nor answered waiting.
    steps: u64,
    condemned: u32,
    /// The far end by the look after the start, and by the one at mark.
    farthest: u64,
    end: Option<u64>,
}

impl Cycle {
    fn start(heap: &mut Words) -> Result<Cycle> {
        heap.start()?;
        let (_, most, condemned) = look(heap)?;
        Ok(Cycle { steps: 0, condemned, farthest: cycle_end(most, condemned), end: None })
    }

    /// One step; the one that moves to mark says the far end.
    fn step(&mut self, heap: &mut Words) -> Result<Step> {
        let step = heap.step()?;
        self.steps += u64::from(!matches!(step, Step::Waiting(_)));
        if step == Step::Moved && heap.phase()? == Phase::Mark {
            let (blocks, _, condemned) = look(heap)?;
            assert_eq!(condemned, self.condemned);
            self.end = Some(cycle_end(blocks, condemned));
            assert!(self.end <= Some(self.farthest));
        }
        assert!(self.steps <= self.end.unwrap_or(self.farthest), "{} steps of {:?}", self.steps, self.end);
        Ok(step)
    }

    /// Steps up to done, mutator 0 checking where one waits: how many, the far end at mark and the one before it.
    fn finish(mut self, heap: &mut Words) -> Result<(u64, u64, u64)> {
        loop {
            match self.step(heap)? {
                Step::Waiting(count) => {
                    assert_eq!(count, 1);
                    heap.mutator(id(0)).check()?;
                }
                Step::Done => return Ok((self.steps, self.end.unwrap(), self.farthest)),
                _ => {}
            }
        }
    }
}

/// Document 01's whole case: of four records three are reached, at 32 KiB of eight seven. Segment 1 is free, and may be taken for as many
/// blocks as class 3 has.
#[test]
fn whole_case() -> Result<()> {
    for (size, all, most) in SIZES {
        let mut heap = opened(2, size)?;
        make(&mut heap, &roots(size))?;
        heap.mutator(id(0)).store(Root::R0, 0, Root::R1)?;
        heap.mutator(id(0)).clear(Root::R1)?;
        heap.mutator(id(0)).clear(Root::R2)?;
        assert_eq!(look(&heap)?, (all, all + most, 0));
        let cycle = Cycle::start(&mut heap)?;
        assert_eq!(look(&heap)?, (all, all + most, 1));
        assert_eq!(cycle.finish(&mut heap)?, (all + 4, all + 5, all + most + 5));
    }
    Ok(())
}

/// All are reached: the bound itself, in the only segment, where it was known at the start.
#[test]
fn all_reached() -> Result<()> {
    for (size, all, _) in SIZES {
        let mut heap = opened(1, size)?;
        make(&mut heap, &roots(size))?;
        assert_eq!(Cycle::start(&mut heap)?.finish(&mut heap)?, (all + 5, all + 5, all + 5));
    }
    Ok(())
}

/// Nothing in use, and nothing condemned: two handshakes, the mark, done. With two records in a held segment, two more.
#[test]
fn nothing_condemned() -> Result<()> {
    for (size, all, most) in SIZES {
        let mut heap = opened(1, size)?;
        assert_eq!(Cycle::start(&mut heap)?.finish(&mut heap)?, (4, 4, most + 4));
        make(&mut heap, &roots(size)[..2])?;
        assert_eq!(Cycle::start(&mut heap)?.finish(&mut heap)?, (6, 6, all + 4));
    }
    Ok(())
}

/// A part segment is condemned too: three blocks in use, and no make takes another; one is reached.
#[test]
fn a_part_segment() -> Result<()> {
    for (size, all, _) in SIZES {
        let mut heap = opened(1, size)?;
        make(&mut heap, &roots(size)[..3])?;
        heap.spawn(id(1), id(0), Root::R2)?.leave()?; // the collector acknowledges for it: no step waits
        heap.mutator(id(0)).detach()?;
        assert_eq!(look(&heap)?, (3, all, 0));
        let cycle = Cycle::start(&mut heap)?;
        assert_eq!(look(&heap)?, (3, 3, 1));
        assert_eq!(cycle.finish(&mut heap)?, (6, 8, 8));
    }
    Ok(())
}

/// Why B is that of mark: two records made in a handshake are reached, and not marked from birth. By the blocks in use
/// at the start, none, there would be 4 steps. What is made in mark is born marked, and adds no step.
#[test]
fn made_meanwhile() -> Result<()> {
    for (size, all, most) in SIZES {
        let mut heap = opened(2, size)?;
        let mut cycle = Cycle::start(&mut heap)?;
        make(&mut heap, &roots(size)[..2])?;
        assert_eq!(look(&heap)?, (2, all + most, 0));
        while heap.phase()? != Phase::Mark {
            heap.mutator(id(0)).check()?;
            assert_eq!(cycle.step(&mut heap), Ok(Step::Moved));
        }
        make(&mut heap, &roots(size)[2..])?;
        assert_eq!(look(&heap)?.0, all);
        assert_eq!(cycle.finish(&mut heap)?, (6, 6, 2 * most + 4));
    }
    Ok(())
}

/// A free segment is filled with the smallest records in a handshake, and so is a held one: B is the most that it can
/// be.
#[test]
fn filled_in_a_handshake() -> Result<()> {
    for (size, all, most) in SIZES {
        let mut heap = opened(2, size)?;
        make(&mut heap, &roots(size)[..1])?;
        let cycle = Cycle::start(&mut heap)?;
        assert_eq!(look(&heap)?, (1, all + most, 0));
        for _ in 0..most {
            heap.mutator(id(0)).make(Root::R9, Shape::new(1, 0))?;
        }
        make(&mut heap, &roots(size)[1..])?;
        assert_eq!(heap.mutator(id(0)).make(Root::R10, SHAPE), Err(Refusal::NoRoom));
        assert_eq!(cycle.finish(&mut heap)?, (1 + all + 4, all + most + 4, all + most + 4));
    }
    Ok(())
}

/// All blocks of two segments of the smallest records are reached, one from another: the far end of a bar is met.
#[test]
fn every_block_of_class_3_reached() -> Result<()> {
    for (size, _, most) in SIZES {
        let mut heap = opened(2, size)?;
        for _ in 0..2 * most {
            let mut mutator = heap.mutator(id(0));
            mutator.make(Root::R1, Shape::new(1, 0))?;
            mutator.store(Root::R1, 0, Root::R0)?;
            mutator.copy(Root::R0, Root::R1)?;
        }
        assert_eq!(look(&heap)?, (2 * most, 2 * most, 0));
        let end = cycle_end(2 * most, 2);
        assert_eq!(Cycle::start(&mut heap)?.finish(&mut heap)?, (end, end, end));
    }
    Ok(())
}

/// Numbers that no look gives.
#[test]
fn the_end_of_any_numbers() {
    assert_eq!(cycle_end(0, 0), 4);
    assert_eq!(cycle_end(2048 * 256, 256), 2049 * 256 + 4);
    assert_eq!(cycle_end(4096 * 256, 256), 4097 * 256 + 4);
    assert_eq!(cycle_end(u64::MAX, u32::MAX), u64::MAX);
}

/// Two mutators that make, keep and drop records beside many cycles, a step after each turn. Each cycle is done within
/// its bound; some take just so many steps, and some more than by the blocks in use at their start.
#[test]
fn many_cycles() -> Result<()> {
    let (mut reached, mut beyond_start, mut seed) = (0, 0, 1_u32);
    let mut any = |below: u32| {
        seed = seed.wrapping_mul(1_664_525).wrapping_add(1_013_904_223);
        (seed >> 8) % below
    };
    for (list, size) in (0..300).flat_map(|list| SegmentSize::ALL.map(|size| (list, size))) {
        let mut heap = opened(1 + any(3), size)?;
        heap.attach(id(1))?;
        for _ in 0..any(40) {
            turn(&mut heap, &mut any, list)?;
        }
        let mut cycle = Cycle::start(&mut heap)?;
        let at_start = cycle_end(look(&heap)?.0, cycle.condemned);
        while cycle.step(&mut heap)? != Step::Done {
            turn(&mut heap, &mut any, list)?;
        }
        reached += u32::from(Some(cycle.steps) == cycle.end);
        beyond_start += u32::from(cycle.steps > at_start);
    }
    assert!(reached > 10 && beyond_start > 10, "{reached} and {beyond_start} of 600");
    Ok(())
}

/// A turn of either mutator: a check most times, and a make into a root, which in some lists keeps what it had.
fn turn(heap: &mut Words, any: &mut impl FnMut(u32) -> u32, list: u32) -> Result<()> {
    let (root, shape) = (Root::new(1 + any(15)).unwrap(), Shape::new(1, [600, 1200, 3000][any(3) as usize]));
    let mut mutator = heap.mutator(id(any(2)));
    if any(4) != 0 {
        mutator.check()?;
    }
    match mutator.make(Root::R0, shape) {
        Ok(()) if list % 2 == 0 => mutator.store(Root::R0, 0, root)?,
        Ok(()) | Err(Refusal::NoRoom) => {}
        Err(refusal) => return Err(refusal),
    }
    mutator.copy(root, Root::R0)
}

/// After done no segment is condemned.
#[test]
fn no_condemned_after_done() -> Result<()> {
    for size in SegmentSize::ALL {
        let mut heap = opened(1, size)?;
        make(&mut heap, &roots(size))?;
        Cycle::start(&mut heap)?.finish(&mut heap)?;
        assert_eq!(look(&heap)?.2, 0);
        assert_eq!(heap.states(&mut [0; 6])?.next().unwrap().state, SegmentState::Full { class: 12, place: fill(size) });
    }
    Ok(())
}
