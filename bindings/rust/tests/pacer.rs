//! The pacer: never a make refused NoRoom in a steady mix, whatever the order of the turns, with several mutators,
//! and after a restart in the middle of a cycle; never one while it says that room is certain; and the trap without it.
#![cfg(feature = "alloc")]

mod common;
#[path = "../examples/paced.rs"]
#[allow(dead_code)] // its main
mod paced;

use borvukhai::{Heap, Pacer, Phase, Refusal, Result, Root, SegmentRecord, SegmentSize, SegmentState, Segments, Shape};
use common::id;
use paced::{Play, STEPS};

const SEGMENTS: Segments = Segments::new(8).unwrap();
const STATES: usize = SEGMENTS.states_length();

#[test]
fn no_make_is_refused_in_a_steady_mix() -> Result<()> {
    let seeds: [(SegmentSize, u32, &[u32]); 2] = [(SegmentSize::Kib16, 100, &[1, 22, 333, 4444]), (SegmentSize::Kib32, 40, &[1, 22])];
    for (size, cycles, seeds) in seeds {
        for (&seed, steps) in seeds.iter().flat_map(|seed| [96, STEPS, 256].map(|steps| (seed, steps))) {
            let mut play = Play::new(size, Some(steps), seed)?;
            play.run(500_000)?;
            assert_eq!(play.no_room, 0);
            assert!(play.cycles > cycles, "{} cycles", play.cycles);
        }
    }
    Ok(())
}

#[test]
fn without_it_makes_are_refused() -> Result<()> {
    for (size, times) in [(SegmentSize::Kib16, 50), (SegmentSize::Kib32, 20)] {
        let mut play = Play::new(size, None, 1)?;
        play.run(500_000)?;
        assert!(play.no_room > times, "{} times", play.no_room);
    }
    Ok(())
}

/// A list of a class for each mutator, the oldest record gone for each new one.
struct Lists {
    heap: Heap<Box<[u32]>>,
    pacer: Pacer<[u32; STATES]>,
}

const FIRST: Root = Root::R0;
const LAST: Root = Root::R1;
const NEW: Root = Root::R2;

/// The mutators 0 to 2, by the classes 4, 5 and 6 of their records.
fn shape_of(number: u32) -> Shape {
    Shape::new(1, [2, 6, 14][number as usize])
}

impl Lists {
    fn over(heap: Heap<Box<[u32]>>) -> Result<Lists> {
        let pacer = Pacer::new(&heap, [0; STATES], 32, 3)?;
        Ok(Lists { heap, pacer })
    }

    fn built(size: SegmentSize) -> Result<Lists> {
        let mut lists = Lists::over(Heap::new(SEGMENTS, size))?;
        for number in 0..3 {
            lists.heap.attach(id(number))?;
            lists.pacer.make(&mut lists.heap, id(number), LAST, shape_of(number))?;
            lists.heap.mutator(id(number)).copy(FIRST, LAST)?;
            for _ in 1..100 {
                lists.append(number)?;
            }
        }
        Ok(lists)
    }

    fn append(&mut self, number: u32) -> Result<()> {
        let mut mutator = self.heap.mutator(id(number));
        let last = mutator.get(LAST, 0)?;
        self.pacer.make(&mut self.heap, id(number), NEW, shape_of(number))?;
        mutator = self.heap.mutator(id(number));
        mutator.put(NEW, 0, last + 1)?;
        mutator.store(LAST, 0, NEW)?;
        mutator.copy(LAST, NEW)
    }

    /// One record more and one less of each list.
    fn turn(&mut self) -> Result<()> {
        for number in 0..3 {
            self.append(number)?;
            let mut mutator = self.heap.mutator(id(number));
            let oldest = mutator.get(FIRST, 0)?;
            mutator.load(FIRST, FIRST, 0)?;
            assert_eq!(mutator.get(FIRST, 0)?, oldest + 1);
        }
        Ok(())
    }
}

#[test]
fn three_mutators() -> Result<()> {
    for size in SegmentSize::ALL {
        let mut lists = Lists::built(size)?;
        for _ in 0..100_000 {
            lists.turn()?;
        }
        assert_eq!(lists.heap.examine(&mut vec![0; SEGMENTS.scratch_length(size)]), Ok(true));
    }
    Ok(())
}

/// Every phase of a cycle is left by a restart: another pacer goes on with what the memory holds.
#[test]
fn after_a_restart() -> Result<()> {
    SegmentSize::ALL.into_iter().try_for_each(restarts)
}

fn restarts(size: SegmentSize) -> Result<()> {
    let mut lists = Lists::built(size)?;
    for phase in [Phase::Sync1, Phase::Sync2, Phase::Mark, Phase::Sweep, Phase::Idle].into_iter().cycle().take(50) {
        let mut turns = 0;
        while turns < 5_000 || (lists.heap.phase()? != phase && turns < 20_000) {
            lists.turn()?;
            turns += 1;
        }
        let words = lists.heap.into_memory();
        lists = Lists::over(Heap::adopt(SEGMENTS, size, words, &mut vec![0; SEGMENTS.scratch_length(size)])?)?;
    }
    Ok(())
}

/// Several mutators and classes in any order; `often` of 1,000 makes at least find the pace kept.
struct Mix {
    segments: u32,
    steps: u32,
    mutators: u32,
    values: &'static [u32],
    often: u32,
    /// Whether a record keeps no other, so that the roots' own are alive and no more.
    alone: bool,
}

struct Mixed {
    mix: Mix,
    heap: Heap<Box<[u32]>>,
    pacer: Pacer<Vec<u32>>,
    seed: u32,
    made: Vec<u32>,
    kept: u32,
}

impl Mixed {
    fn new(mix: Mix, size: SegmentSize, seed: u32) -> Result<Mixed> {
        let segments = Segments::new(mix.segments).unwrap();
        let mut heap = Heap::new(segments, size);
        for number in 0..mix.mutators {
            heap.attach(id(number))?;
        }
        let pacer = Pacer::new(&heap, vec![0; segments.states_length()], mix.steps, mix.mutators)?;
        Ok(Mixed { mix, heap, pacer, seed, made: Vec::new(), kept: 0 })
    }

    fn any(&mut self, below: u32) -> u32 {
        self.seed ^= self.seed << 13;
        self.seed ^= self.seed >> 17;
        self.seed ^= self.seed << 5;
        self.seed % below
    }

    /// Who makes how many values next: half of the times one that holds no segment of the class, where there is one.
    fn choose(&mut self) -> Result<(u32, u32)> {
        let mut output = vec![0; self.heap.segments().states_length()];
        let states: Vec<_> = self.heap.states(&mut output)?.collect();
        let tries = if self.any(2) == 0 { 12 } else { 1 };
        let mut chosen = (0, 0);
        for _ in 0..tries {
            let values = self.any(self.mix.values.len() as u32) as usize;
            chosen = (self.any(self.mix.mutators), self.mix.values[values]);
            let holds = |record: &SegmentRecord| {
                matches!(record.state, SegmentState::Held { class, mutator, .. }
                if mutator == id(chosen.0) && Some(class) == Shape::new(1, chosen.1).class())
            };
            if !states.iter().any(holds) {
                break;
            }
        }
        Ok(chosen)
    }

    /// A make; the new record keeps that of some root, or not. Refused, all of the mutator goes, and a whole cycle runs.
    fn turn(&mut self) -> Result<()> {
        let (number, values) = self.choose()?;
        let (shape, played) = (Shape::new(1, values), self.made.contains(&values));
        let root = Root::new(1 + self.any(15)).unwrap();
        let (room, kept) = (self.pacer.room(), self.pacer.kept());
        self.kept += u32::from(kept);
        let mut mutator = self.heap.mutator(id(number));
        if mutator.make(Root::R0, shape) == Err(Refusal::NoRoom) {
            assert!(!played || (room == 0 && !kept), "refused with room for {room}, kept {kept}");
            for root in Root::all() {
                mutator.clear(root)?;
            }
            return self.pacer.finish(&mut self.heap);
        }
        if !self.mix.alone && self.any(16) != 0 {
            self.heap.mutator(id(number)).store(Root::R0, 0, root)?;
        }
        self.heap.mutator(id(number)).copy(root, Root::R0)?;
        for number in 0..self.mix.mutators {
            self.heap.mutator(id(number)).check()?;
        }
        if !played {
            self.made.push(values);
        }
        self.pacer.made(&mut self.heap, shape)
    }
}

/// No make of a class in play is refused while the pacer says that room is certain, or that the pace is kept.
#[test]
fn room_is_certain() -> Result<()> {
    const TURNS: u32 = 20_000;
    let seeds = [1, 22, 333, 4444, 55_555].map(|seed| (SegmentSize::Kib16, seed)).into_iter();
    for (size, seed) in seeds.chain([1, 22].map(|seed| (SegmentSize::Kib32, seed))) {
        let mixes = [
            Mix { segments: 2, steps: 8, mutators: 2, values: &[1, 5], often: 0, alone: false },
            Mix { segments: 8, steps: 64, mutators: 1, values: &[6, 14, 30], often: 950, alone: false },
            Mix { segments: 10, steps: 64, mutators: 2, values: &[1, 5, 12], often: 700, alone: false },
            Mix { segments: 16, steps: 64, mutators: 2, values: &[1, 5, 12], often: 950, alone: false },
            Mix { segments: 24, steps: 256, mutators: 4, values: &[2, 6, 40], often: 400, alone: false },
            Mix { segments: 12, steps: 16, mutators: 1, values: &[1500, 3000], often: 0, alone: true },
            Mix { segments: 24, steps: 16, mutators: 1, values: &[1500, 3000], often: 700, alone: true },
            Mix { segments: 32, steps: 64, mutators: 2, values: &[1500, 3000], often: 400, alone: true },
            Mix { segments: 40, steps: 64, mutators: 2, values: &[6, 1500, 3000], often: 500, alone: true },
        ];
        for mix in mixes {
            let mut mixed = Mixed::new(mix, size, seed)?;
            for _ in 0..TURNS {
                mixed.turn()?;
            }
            let often = TURNS / 1000 * mixed.mix.often;
            assert!(mixed.kept >= often, "{} segments of {} KiB: kept at {} of {TURNS}", mixed.mix.segments, size.kib(), mixed.kept);
        }
    }
    Ok(())
}

/// The shortest case: mutator 0 holds both segments, so mutator 1 finds none, and the pacer promises none. With the
/// classes named before, and one maker each, it promises what there is.
#[test]
fn one_mutator_holds_all() -> Result<()> {
    const TWO: Segments = Segments::new(2).unwrap();
    for size in SegmentSize::ALL {
        let mut heap = Heap::new(TWO, size);
        let mut pacer = Pacer::new(&heap, [0; TWO.states_length()], 8, 2)?;
        for number in 0..2 {
            heap.attach(id(number))?;
        }
        for values in [1, 5] {
            pacer.make(&mut heap, id(0), NEW, Shape::new(1, values))?;
        }
        assert_eq!((pacer.room(), pacer.kept()), (0, false));
        assert_eq!(pacer.make(&mut heap, id(1), NEW, Shape::new(1, 1)), Err(Refusal::NoRoom));
        for values in [1, 5] {
            pacer.makers(&heap, Shape::new(1, values), 1)?;
        }
        assert_eq!((pacer.room(), pacer.kept()), (size.blocks(5) - 1, true));
    }
    Ok(())
}

/// Classes of few blocks in two segments, 13 and 14: as many makes as the pacer says find room in any order, and in the worst one the next
/// finds none.
#[test]
fn classes_of_few_blocks() -> Result<()> {
    const TWO: Segments = Segments::new(2).unwrap();
    let (long, longer) = (2046, 4094);
    let worst: [(SegmentSize, &[u32], &[u32]); 6] = [
        (SegmentSize::Kib16, &[long], &[long; 4]),
        (SegmentSize::Kib16, &[longer], &[longer; 2]),
        (SegmentSize::Kib16, &[longer, long], &[longer; 2]),
        (SegmentSize::Kib32, &[long], &[long; 8]),
        (SegmentSize::Kib32, &[longer], &[longer; 4]),
        (SegmentSize::Kib32, &[longer, long], &[long, longer, longer]),
    ];
    for (size, played, makes) in worst {
        let mut heap = Heap::new(TWO, size);
        heap.attach(id(0))?;
        let mut pacer = Pacer::new(&heap, [0; TWO.states_length()], 8, 1)?;
        for &values in played {
            pacer.makers(&heap, Shape::new(1, values), 1)?;
        }
        assert_eq!(pacer.room() as usize, makes.len());
        for &values in makes {
            heap.mutator(id(0)).make(NEW, Shape::new(1, values))?;
        }
        assert_eq!(heap.mutator(id(0)).make(NEW, Shape::new(1, played[0])), Err(Refusal::NoRoom));
    }
    Ok(())
}

/// 32 mutators that make every class: each of the segments can be taken by one make, and then the next finds none.
#[test]
fn all_mutators_and_classes() -> Result<()> {
    const MANY: Segments = Segments::new(24).unwrap();
    for size in SegmentSize::ALL {
        let mut heap = Heap::new(MANY, size);
        let mut pacer = Pacer::new(&heap, [0; MANY.states_length()], 8, 32)?;
        for class in 3..=14 {
            pacer.makers(&heap, Shape::new(0, (1 << class) / 4 - 1), 32)?;
        }
        assert_eq!(pacer.room(), 24);
        for number in 0..24 {
            heap.attach(id(number))?.make(NEW, Shape::new(0, 1))?;
        }
        assert_eq!(heap.attach(id(31))?.make(NEW, Shape::new(0, 1)), Err(Refusal::NoRoom));
    }
    Ok(())
}

/// A heap of one segment: no step in between helps, and a whole cycle before the next make does.
#[test]
fn a_small_heap_by_whole_cycles() -> Result<()> {
    for size in SegmentSize::ALL {
        let mut heap = Heap::new(common::ONE, size);
        heap.attach(id(0))?;
        let mut pacer = Pacer::new(&heap, [0; common::STATES], 1, 1)?;
        let mut refused = 0;
        for _ in 0..1000 {
            if pacer.make(&mut heap, id(0), NEW, common::SHAPE) == Err(Refusal::NoRoom) {
                refused += 1;
                pacer.finish(&mut heap)?;
                pacer.make(&mut heap, id(0), NEW, common::SHAPE)?;
            }
            assert!(!pacer.kept());
        }
        assert!(refused > 100, "{refused}");
    }
    Ok(())
}

/// A venue plays long chases after short ones: 200 acts, each with a mutator that makes one class, of 3 to 13 in turn, and
/// to 14 at 32 KiB, one and a half segments of it. What an act held is part then, and all dead; a part segment of each
/// class that no act makes for ten acts would fill the heap. No make is refused.
#[test]
fn acts_of_changing_classes() -> Result<()> {
    const SIX: Segments = Segments::new(6).unwrap();
    for (size, classes) in [(SegmentSize::Kib16, 11), (SegmentSize::Kib32, 12)] {
        let mut heap = Heap::new(SIX, size);
        let mut pacer = Pacer::new(&heap, [0; SIX.states_length()], 64, 1)?;
        for act in 0..200 {
            let class = 3 + act * 7 % classes;
            heap.attach(id(0))?;
            for at in 0..size.blocks(class) * 3 / 2 {
                pacer.make(&mut heap, id(0), Root::new(at % 16).unwrap(), Shape::new(0, (1 << class) / 4 - 1))?;
            }
            if heap.mutator(id(0)).detach() == Err(Refusal::NotNow) {
                pacer.finish(&mut heap)?;
                heap.mutator(id(0)).detach()?;
            }
        }
    }
    Ok(())
}

/// Which mix no pace can hold: a segment that a mutator holds of a class that it makes no more, all dead, is in no collect
/// set. Once the mutator is detached it is part, and the next cycle makes it free.
#[test]
fn a_class_that_is_no_longer_made() -> Result<()> {
    const TWO: Segments = Segments::new(2).unwrap();
    for size in SegmentSize::ALL {
        let mut heap = Heap::new(TWO, size);
        heap.attach(id(0))?;
        let mut pacer = Pacer::new(&heap, [0; TWO.states_length()], 100, 1)?;
        for shape in [Shape::new(1, 2), Shape::new(1, 6)] {
            pacer.make(&mut heap, id(0), NEW, shape)?;
        }
        heap.mutator(id(0)).clear(NEW)?;
        assert_eq!(pacer.make(&mut heap, id(0), NEW, Shape::new(1, 14)), Err(Refusal::NoRoom));
        heap.start()?;
        assert_eq!(heap.finish_cycle(), Ok(0));
        assert_eq!(heap.mutator(id(0)).make(NEW, Shape::new(1, 14)), Err(Refusal::NoRoom));
        assert!(heap.states(&mut [0; TWO.states_length()])?.all(|record| matches!(record.state, SegmentState::Held { .. })));
        heap.mutator(id(0)).detach()?;
        heap.attach(id(0))?;
        heap.start()?;
        assert_eq!(heap.finish_cycle(), Ok(2));
        heap.mutator(id(0)).make(NEW, Shape::new(1, 14))?;
    }
    Ok(())
}

#[test]
fn another_output_is_refused() {
    for size in SegmentSize::ALL {
        let heap = Heap::new(SEGMENTS, size);
        assert_eq!(Pacer::new(&heap, [0; common::STATES], 1, 1).unwrap_err(), Refusal::Size);
    }
}

/// Over words of any content a pacer ends and panics never, as the calls below it.
#[test]
fn torn_memory() {
    for size in SegmentSize::ALL {
        let mut words = common::full(size);
        for (n, word) in words.iter_mut().enumerate() {
            *word = (n as u32).wrapping_mul(0x9e37_79b9) >> (n % 32);
        }
        for (phase, tag) in (0..=5).flat_map(|phase| (0..=5).map(move |tag| (phase, tag))) {
            (words[common::at::PHASE], words[common::at::tag(size)]) = (phase, tag);
            let mut heap = Heap::adopt_unexamined(common::ONE, size, words.clone()).unwrap();
            if let Ok(mut pacer) = Pacer::new(&heap, [0; common::STATES], 7, 1) {
                for number in 0..200 {
                    let _ = pacer.make(&mut heap, id(number % 32), NEW, Shape::new(1, number));
                    let _ = pacer.made(&mut heap, Shape::new(1, number));
                }
            }
        }
    }
}

/// The same where a segment's class word is another class's or none, so that at 16 KiB a look may show one of class 14 as part or held; and
/// where its counts are others, so that a make or a sweep may be refused Torn.
#[test]
fn torn_class_words_and_counts() {
    for size in SegmentSize::ALL {
        for words in common::torn_classes(size).chain(common::torn_counts(size)) {
            let mut heap = Heap::adopt_unexamined(common::ONE, size, words).unwrap();
            if let Ok(mut pacer) = Pacer::new(&heap, [0; common::STATES], 7, 1) {
                for values in [6, 600, 2000, 4000] {
                    let _ = pacer.make(&mut heap, id(0), NEW, Shape::new(1, values));
                    let _ = pacer.made(&mut heap, Shape::new(1, values));
                }
                let _ = pacer.finish(&mut heap);
            }
        }
    }
}
