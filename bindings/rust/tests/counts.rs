//! The two counts of a segment, blocks kept at its last sweep and blocks handed out since, against figures that were reckoned by hand from
//! document 01 and requests No. 3 and 5; over memory whose counts are torn; and over lists of calls, where the makes less the blocks that
//! sweeps freed are the blocks in use.
//!
//! A case by hand names its classes as at 16 KiB. At 32 KiB it has the next class for each, which has as many blocks there.

mod common;

use borvukhai::{Heap, MutatorId, Phase, Refusal, Result, Root, SegmentRecord, SegmentSize, SegmentState, Segments, Shape, Step, raw};
use common::{ONE, at, id};

const SIX: Segments = Segments::new(6).unwrap();

/// Document 01's table of blocks, by class from 3 on, with the two classes of request No. 2; and that of request No. 6.
const BLOCKS: [u32; 12] = [2048, 1024, 512, 256, 128, 64, 32, 16, 8, 4, 2, 1];
const BLOCKS_AT_32: [u32; 12] = [4096, 2048, 1024, 512, 256, 128, 64, 32, 16, 8, 4, 2];

type Words = Heap<Vec<u32>>;

/// A heap with mutator 0 inside, in memory that was not 0.
fn opened(segments: Segments, size: SegmentSize) -> Result<Words> {
    let mut heap = Heap::open(segments, size, vec![0xa5a5_a5a5; segments.length(size)])?;
    heap.attach(id(0))?;
    Ok(heap)
}

/// The longest records of a class, with one pointer.
fn shape_of(class: u32) -> Shape {
    Shape::new(1, (1 << class) / 4 - 2)
}

fn root(number: u32) -> Root {
    Root::new(number).unwrap()
}

/// So many makes of a class by mutator 0 into root 0.
fn makes(heap: &mut Words, class: u32, count: u32) -> Result<()> {
    (0..count).try_for_each(|_| heap.mutator(id(0)).make(Root::R0, shape_of(class)))
}

/// The class that a case by hand has at this size.
fn class_at(size: SegmentSize, class: u32) -> u32 {
    match size {
        SegmentSize::Kib16 => class,
        SegmentSize::Kib32 => class + 1,
    }
}

/// A make of such a class by a mutator.
fn make(heap: &mut Words, mutator: u32, to: Root, class: u32) -> Result<()> {
    let class = class_at(heap.segment_size(), class);
    heap.mutator(id(mutator)).make(to, shape_of(class))
}

/// The records of all segments.
fn records(heap: &Words) -> Vec<SegmentRecord> {
    heap.states(&mut vec![0; heap.segments().states_length()]).unwrap().collect()
}

fn sound(heap: &Words) -> bool {
    heap.examine(&mut vec![7; heap.segments().scratch_length(heap.segment_size())]).unwrap()
}

/// The records of all segments, over memory that passes the examination.
fn look(heap: &Words) -> Vec<SegmentRecord> {
    assert!(sound(heap));
    records(heap)
}

const FREE: SegmentRecord = SegmentRecord { state: SegmentState::Free, kept: 0, handed_out: 0 };

fn part(class: u32, place: u32, kept: u32, handed_out: u32) -> SegmentRecord {
    SegmentRecord { state: SegmentState::Part { class, place }, kept, handed_out }
}

fn held(mutator: u32, class: u32, place: u32, kept: u32, handed_out: u32) -> SegmentRecord {
    SegmentRecord { state: SegmentState::Held { class, place, mutator: id(mutator) }, kept, handed_out }
}

fn full(class: u32, kept: u32, handed_out: u32) -> SegmentRecord {
    SegmentRecord { state: SegmentState::Full { class, place: BLOCKS[class as usize - 3] }, kept, handed_out }
}

/// The records of a case by hand, with the classes that it has at this size.
fn at_size<const N: usize>(size: SegmentSize, records: [SegmentRecord; N]) -> [SegmentRecord; N] {
    records.map(|record| match record.state {
        SegmentState::Free => record,
        SegmentState::Part { class, place } => part(class_at(size, class), place, record.kept, record.handed_out),
        SegmentState::Held { class, place, mutator } => {
            held(mutator.number(), class_at(size, class), place, record.kept, record.handed_out)
        }
        SegmentState::Full { class, place } => {
            SegmentRecord { state: SegmentState::Full { class: class_at(size, class), place }, ..record }
        }
        SegmentState::Condemned { class, place } => condemned(class_at(size, class), place, record.kept, record.handed_out),
    })
}

fn condemned(class: u32, place: u32, kept: u32, handed_out: u32) -> SegmentRecord {
    SegmentRecord { state: SegmentState::Condemned { class, place }, kept, handed_out }
}

/// The heap passes the examination, and a look shows these records of a case by hand.
fn shows<const N: usize>(heap: &Words, records: [SegmentRecord; N]) {
    assert_eq!(look(heap), at_size(heap.segment_size(), records));
}

/// Both handshakes of a started cycle, mutator 0 inside.
fn handshakes(heap: &mut Words) -> Result<()> {
    for _ in 0..2 {
        heap.mutator(id(0)).check()?;
        assert_eq!(heap.step(), Ok(Step::Moved));
    }
    Ok(())
}

/// The phase mark: so many records are marked.
fn mark(heap: &mut Words, traced: u32) {
    for _ in 0..traced {
        assert_eq!(heap.step(), Ok(Step::Traced));
    }
    assert_eq!(heap.step(), Ok(Step::Moved));
}

/// The sweep: these segments, each with the blocks that become free.
fn sweep(heap: &mut Words, swept: &[(u32, u32)]) {
    for &(segment, freed) in swept {
        assert_eq!(heap.step(), Ok(Step::Swept { segment, freed }));
    }
    assert_eq!(heap.step(), Ok(Step::Done));
}

/// A whole cycle: so many records are marked, and these segments are swept.
fn cycle(heap: &mut Words, traced: u32, swept: &[(u32, u32)]) -> Result<()> {
    heap.start()?;
    handshakes(heap)?;
    mark(heap, traced);
    sweep(heap, swept);
    Ok(())
}

/// After an opening both counts of every segment are 0, also where a heap with counts was there.
#[test]
fn an_opening() -> Result<()> {
    for size in SegmentSize::ALL {
        let mut heap = opened(SIX, size)?;
        shows(&heap, [FREE; 6]);
        (0..5).try_for_each(|_| make(&mut heap, 0, Root::R0, 12))?;
        shows(&heap, [full(12, 0, 4), held(0, 12, 1, 0, 1), FREE, FREE, FREE, FREE]);
        let heap = Heap::open(SIX, size, heap.into_memory())?;
        shows(&heap, [FREE; 6]);
    }
    Ok(())
}

/// Segments come off the free stack from 0 on, one for each mutator and class. No bit of theirs is 1: the n-th make gets block n - 1 and
/// leaves the place at n, so n blocks before it have a 0 bit, and none was kept. A detach keeps places and counts.
#[test]
fn makes_in_three_classes() -> Result<()> {
    for size in SegmentSize::ALL {
        let mut heap = opened(SIX, size)?;
        heap.attach(id(1))?;
        for (mutator, class, count) in [(0, 3, 3), (0, 4, 2), (0, 12, 1), (1, 4, 1)] {
            (0..count).try_for_each(|_| make(&mut heap, mutator, Root::R0, class))?;
        }
        let made = [held(0, 3, 3, 0, 3), held(0, 4, 2, 0, 2), held(0, 12, 1, 0, 1), held(1, 4, 1, 0, 1), FREE, FREE];
        shows(&heap, made);
        assert_eq!(heap.mutator(id(0)).make(Root::R0, Shape::new(0, 4096)), Err(Refusal::TooBig));
        shows(&heap, made);
        heap.mutator(id(0)).detach()?;
        shows(&heap, [part(3, 3, 0, 3), part(4, 2, 0, 2), part(12, 1, 0, 1), held(1, 4, 1, 0, 1), FREE, FREE]);
        make(&mut heap, 1, Root::R0, 3)?; // from segment 0, block 3
        shows(&heap, [held(1, 3, 4, 0, 4), part(4, 2, 0, 2), part(12, 1, 0, 1), held(1, 4, 1, 0, 1), FREE, FREE]);
    }
    Ok(())
}

/// The make that fills a segment counts too, and a start changes no count.
#[test]
fn a_fill_of_each_class() -> Result<()> {
    for (size, table) in [(SegmentSize::Kib16, BLOCKS), (SegmentSize::Kib32, BLOCKS_AT_32)] {
        for (class, blocks) in (3..).zip(table) {
            assert_eq!(size.blocks(class), blocks);
            let full = SegmentRecord { state: SegmentState::Full { class, place: blocks }, kept: 0, handed_out: blocks };
            let mut heap = opened(ONE, size)?;
            makes(&mut heap, class, blocks - 1)?;
            let before = if blocks == 1 { FREE } else { held(0, class, blocks - 1, 0, blocks - 1) };
            assert_eq!(look(&heap), [before]);
            makes(&mut heap, class, 1)?;
            assert_eq!(look(&heap), [full]);
            assert_eq!(makes(&mut heap, class, 1), Err(Refusal::NoRoom));
            assert_eq!(look(&heap), [full]);
            heap.start()?;
            assert_eq!(look(&heap), [condemned(class, blocks, 0, blocks)]);
        }
    }
    Ok(())
}

/// A segment of class 10 has 16 blocks; root r gets the record in block r. With these roots cleared the sweep keeps the blocks 3, 4, 5, 9
/// and 15, and 16 - 5 become free. The makes after it begin at place 0:
///
/// | make | 1 | 2 | 3 | 4 | 5 | 6 | 7 | 8 | 9 | 10 | 11 |
/// |---|---|---|---|---|---|---|---|---|---|---|---|
/// | block, past 3, 4 and 5, and past 9 | 0 | 1 | 2 | 6 | 7 | 8 | 10 | 11 | 12 | 13 | 14 |
/// | place after it; block 15 is kept, so in the end none remains | 1 | 2 | 3 | 7 | 8 | 9 | 11 | 12 | 13 | 14 | full |
/// | 0 bits before it | 1 | 2 | 3 | 4 | 5 | 6 | 7 | 8 | 9 | 10 | 11 |
///
/// Then all 16 are alive: the sweep keeps them all. Without root 0 the next keeps 15 and frees 1; one make gets block 0 and fills the
/// segment. With no root left, the 15 + 1 blocks become free, and both counts are 0. Segment 0 was put on the free stack last, so the
/// next makes take it for their class, 5.
#[test]
fn sweeps_to_part_full_and_free() -> Result<()> {
    let cleared = [0, 1, 2, 6, 7, 8, 10, 11, 12, 13, 14];
    let places = [1, 2, 3, 7, 8, 9, 11, 12, 13, 14];
    for size in SegmentSize::ALL {
        let mut heap = opened(Segments::new(2).unwrap(), size)?;
        Root::all().try_for_each(|to| make(&mut heap, 0, to, 10))?;
        cleared.into_iter().try_for_each(|at| heap.mutator(id(0)).clear(root(at)))?;
        cycle(&mut heap, 5, &[(0, 11)])?;
        shows(&heap, [part(10, 0, 5, 0), FREE]);
        for (at, (place, count)) in cleared.into_iter().zip(places.into_iter().zip(1..)) {
            make(&mut heap, 0, root(at), 10)?;
            shows(&heap, [held(0, 10, place, 5, count), FREE]);
        }
        make(&mut heap, 0, root(14), 10)?;
        shows(&heap, [full(10, 5, 11), FREE]);

        cycle(&mut heap, 16, &[(0, 0)])?;
        shows(&heap, [full(10, 16, 0), FREE]);
        heap.mutator(id(0)).clear(Root::R0)?;
        cycle(&mut heap, 15, &[(0, 1)])?;
        shows(&heap, [part(10, 0, 15, 0), FREE]);
        make(&mut heap, 0, Root::R0, 10)?;
        shows(&heap, [full(10, 15, 1), FREE]);

        Root::all().try_for_each(|at| heap.mutator(id(0)).clear(at))?;
        cycle(&mut heap, 0, &[(0, 16)])?;
        shows(&heap, [FREE, FREE]);
        (0..2).try_for_each(|_| make(&mut heap, 0, Root::R0, 5))?;
        shows(&heap, [held(0, 5, 2, 0, 2), FREE]);
    }
    Ok(())
}

/// A list of records of class 3, each with a pointer to the one made before it, fills a segment. Root 1 has the 777th, or another one, so
/// blocks 0 to 776 are reached; the sweep keeps them, and 2,048 - 777 = 1,271 become free. The next make finds block 777 behind 24 whole
/// words and 9 bits that are 1; one 0 bit lies before place 778. 1,271 makes fill the segment, the last but one with block 2,046.
///
/// At 32 KiB so many of 4,096. With the 2,345th the search goes past 73 whole words of level 0, and so past two of level 1; with the 4,095th
/// one block is left, the last.
#[test]
fn a_bitmap_of_three_levels() -> Result<()> {
    for (size, blocks, kept) in [
        (SegmentSize::Kib16, 2048, 777),
        (SegmentSize::Kib16, 2048, 2047),
        (SegmentSize::Kib32, 4096, 777),
        (SegmentSize::Kib32, 4096, 2047),
        (SegmentSize::Kib32, 4096, 2048),
        (SegmentSize::Kib32, 4096, 2345),
        (SegmentSize::Kib32, 4096, 4095),
    ] {
        let mut heap = opened(ONE, size)?;
        let mut mutator = heap.mutator(id(0));
        for made in 1..=blocks {
            mutator.make(Root::R0, shape_of(3))?;
            mutator.store(Root::R0, 0, Root::R2)?;
            mutator.copy(Root::R2, Root::R0)?;
            if made == kept {
                mutator.copy(Root::R1, Root::R0)?;
            }
        }
        mutator.clear(Root::R0)?;
        mutator.clear(Root::R2)?;
        cycle(&mut heap, kept, &[(0, blocks - kept)])?;
        assert_eq!(look(&heap), [part(3, 0, kept, 0)]);
        for made in 1..blocks - kept {
            makes(&mut heap, 3, 1)?;
            if [1, blocks - kept - 1].contains(&made) {
                assert_eq!(look(&heap), [held(0, 3, kept + made, kept, made)]);
            }
        }
        makes(&mut heap, 3, 1)?;
        let state = SegmentState::Full { class: 3, place: blocks };
        assert_eq!(look(&heap), [SegmentRecord { state, kept, handed_out: blocks - kept }]);
        assert_eq!(makes(&mut heap, 3, 1), Err(Refusal::NoRoom));
    }
    Ok(())
}

/// Four segments are filled: 0, 1 and 3 of class 12, 4 blocks, by mutator 0 with roots 0 to 11; 2 of class 11, 8 blocks, by mutator 1 with
/// roots 0 to 7. With these roots cleared the sweeps keep block 2 of segment 0, blocks 1 and 3 of segment 1, blocks 0 and 4 of segment 2
/// and blocks 0, 1 and 3 of segment 3, and free 4 - 1, 4 - 2, 8 - 2 and 4 - 3. All four are part, 3 on top of class 12's stack.
fn four_parts(size: SegmentSize) -> Result<Words> {
    let mut heap = opened(SIX, size)?;
    heap.attach(id(1))?;
    for (mutator, class, mut roots) in [(0, 12, 0..8), (1, 11, 0..8), (0, 12, 8..12)] {
        roots.try_for_each(|to| make(&mut heap, mutator, root(to), class))?;
    }
    for (mutator, roots) in [(0, [0, 1, 3, 4, 6, 10]), (1, [1, 2, 3, 5, 6, 7])] {
        roots.into_iter().try_for_each(|at| heap.mutator(id(mutator)).clear(root(at)))?;
    }
    heap.mutator(id(1)).leave()?;
    cycle(&mut heap, 8, &[(0, 3), (1, 2), (2, 6), (3, 1)])?;
    shows(&heap, [part(12, 0, 1, 0), part(12, 0, 2, 0), part(11, 0, 2, 0), part(12, 0, 3, 0), FREE, FREE]);
    Ok(heap)
}

/// All four with blocks kept and blocks handed out, none condemned.
///
/// - 3: one make by mutator 0 gets block 2, between 1 and 3: full with 3 and 1.
/// - 1: one more gets block 0; block 2 remains: held with 2 and 1, the place 1.
/// - 2: mutator 1 makes two, blocks 1 and 2 past block 0, and is detached: part with 2 and 2, the place 3.
/// - 0: mutator 2 makes one, block 0; blocks 1 and 3 remain: held with 1 and 1, the place 1. It goes outside.
fn in_idle(size: SegmentSize) -> Result<Words> {
    let mut heap = four_parts(size)?;
    [10, 4].into_iter().try_for_each(|to| make(&mut heap, 0, root(to), 12))?;
    heap.mutator(id(1)).enter()?;
    [1, 2].into_iter().try_for_each(|to| make(&mut heap, 1, root(to), 11))?;
    heap.mutator(id(1)).detach()?;
    heap.attach(id(2))?;
    make(&mut heap, 2, Root::R0, 12)?;
    heap.mutator(id(2)).leave()?;
    heap.mutator(id(0)).clear(root(9))?;
    shows(&heap, [held(2, 12, 1, 1, 1), held(0, 12, 1, 2, 1), part(11, 3, 2, 2), full(12, 3, 1), FREE, FREE]);
    Ok(heap)
}

/// The cycle below: segment 0, and what the others are.
fn beside(first: SegmentRecord) -> [SegmentRecord; 6] {
    [first, full(12, 2, 2), condemned(11, 3, 2, 2), condemned(12, 4, 3, 1), held(0, 5, 1, 0, 1), FREE]
}

/// A start condemns the full segment 3 and the part segment 2, each with its place and counts. Mutator 0 then makes one of class 12, block 2
/// of segment 1, which is full with 2 and 2 and not condemned; and one of class 5 in segment 4.
fn in_sync1(size: SegmentSize) -> Result<Words> {
    let mut heap = in_idle(size)?;
    heap.start()?;
    make(&mut heap, 0, root(6), 12)?;
    make(&mut heap, 0, root(0), 5)?;
    shows(&heap, beside(held(2, 12, 1, 1, 1)));
    Ok(heap)
}

/// All five states, in mark: mutator 2 is detached, and segment 0, which it held, is part with its place and counts.
fn five_states(size: SegmentSize) -> Result<Words> {
    let mut heap = in_sync1(size)?;
    handshakes(&mut heap)?;
    heap.mutator(id(2)).enter()?;
    heap.mutator(id(2)).detach()?;
    shows(&heap, beside(part(12, 1, 1, 1)));
    Ok(heap)
}

/// The rest of that cycle: roots 0, 2, 4 to 8, 10 and 11 of mutator 0 have records, and root 0 of mutator 2 had one: ten are marked. Segment
/// 2 had mutator 1's alone: its 2 + 2 blocks become free. Of segment 3 root 9 had block 1: blocks 0, 2 and 3 are kept, and 3 + 1 - 3
/// becomes free. No other segment's counts change, and segment 0 is not swept.
///
/// The cycle after it, with no record alive: segments 0, 1 and 3 are swept, and their 1 + 1, 2 + 2 and 3 + 0 blocks become free, of the two
/// part ones no more than that. Segment 4 stays held.
#[test]
fn all_five_states() -> Result<()> {
    for size in SegmentSize::ALL {
        let mut heap = five_states(size)?;
        mark(&mut heap, 10);
        let last = held(0, 5, 1, 0, 1);
        sweep(&mut heap, &[(2, 4), (3, 1)]);
        shows(&heap, [part(12, 1, 1, 1), full(12, 2, 2), FREE, part(12, 0, 3, 0), last, FREE]);

        Root::all().try_for_each(|at| heap.mutator(id(0)).clear(at))?;
        cycle(&mut heap, 0, &[(0, 2), (1, 4), (3, 3)])?;
        shows(&heap, [FREE, FREE, FREE, FREE, last, FREE]);
    }
    Ok(())
}

/// Where docs/LAYOUT.md puts the two counts of a segment, kept and handed out.
fn counts_at(heap: &Words, segment: usize) -> [usize; 2] {
    let record = 1040 + at::words(heap.segment_size()) * heap.segments().count() as usize + 6 * segment;
    [record + 4, record + 5]
}

/// The heap with a word that is another number.
fn with(heap: &Words, word: usize, number: u32) -> Words {
    let mut words = heap.memory().to_vec();
    words[word] = number;
    Heap::adopt_unexamined(heap.segments(), heap.segment_size(), words).unwrap()
}

/// Makes of every class, the calls of coming and going, a start, steps and checks over the words as they are: none panics, and none is
/// refused Size.
fn calls_over(torn: &Words) {
    let anew = || Heap::adopt_unexamined(torn.segments(), torn.segment_size(), torn.memory().to_vec()).unwrap();
    for class in 3..=14 {
        assert_ne!(anew().mutator(id(0)).make(Root::R0, shape_of(class)), Err(Refusal::Size));
    }
    assert_ne!(anew().attach(id(1)).map(drop), Err(Refusal::Size));
    assert_ne!(anew().spawn(id(1), id(0), Root::R0).map(drop), Err(Refusal::Size));
    assert_ne!(anew().mutator(id(0)).detach(), Err(Refusal::Size));
    assert_ne!(anew().mutator(id(0)).leave(), Err(Refusal::Size));
    assert_ne!(anew().start(), Err(Refusal::Size));
    let mut heap = anew();
    for _ in 0..24 {
        assert_ne!(heap.step().map(drop), Err(Refusal::Size));
        assert_ne!(heap.mutator(id(0)).check(), Err(Refusal::Size));
    }
    assert!(heap.phase().is_ok());
    let _ = heap.finish_cycle();
}

/// Each count of each segment is another number: the look tells the words as they are, and the examination says yes exactly where the
/// number is the right one.
fn torn_counts(heap: &Words) {
    assert!(sound(heap));
    for (segment, right) in records(heap).into_iter().enumerate() {
        let blocks = match right.state {
            SegmentState::Free => 4,
            SegmentState::Part { class, .. }
            | SegmentState::Held { class, .. }
            | SegmentState::Full { class, .. }
            | SegmentState::Condemned { class, .. } => heap.segment_size().blocks(class),
        };
        let [kept_at, handed_out_at] = counts_at(heap, segment);
        for number in [0, 1, 2, 3, blocks, blocks + 1, 1 << 31, u32::MAX] {
            let torn = with(heap, kept_at, number);
            assert_eq!(records(&torn)[segment], SegmentRecord { kept: number, ..right });
            assert_eq!(sound(&torn), number == right.kept, "segment {segment}, {number} kept");
            calls_over(&torn);
            let torn = with(heap, handed_out_at, number);
            assert_eq!(records(&torn)[segment], SegmentRecord { handed_out: number, ..right });
            assert_eq!(sound(&torn), number == right.handed_out, "segment {segment}, {number} handed out");
            calls_over(&torn);
        }
    }
}

/// The heap from its phase on, and in each of these phases of the cycle.
fn torn_counts_in(mut heap: Words, phases: &[Phase]) -> Result<()> {
    for &then in phases {
        while heap.phase()? != then {
            heap.mutator(id(0)).check()?;
            heap.step()?;
        }
        torn_counts(&heap);
    }
    Ok(())
}

/// A segment in each state, in each phase of a cycle; and one whose blocks were all handed out, and then all kept.
#[test]
fn torn_counts_in_every_state() -> Result<()> {
    for size in SegmentSize::ALL {
        torn_counts(&in_idle(size)?);
        torn_counts_in(in_sync1(size)?, &[Phase::Sync1, Phase::Sync2])?;
        torn_counts_in(five_states(size)?, &[Phase::Mark, Phase::Sweep, Phase::Idle])?;
        let mut heap = opened(ONE, size)?;
        (0..4).try_for_each(|to| make(&mut heap, 0, root(to), 12))?;
        shows(&heap, [full(12, 0, 4)]);
        torn_counts(&heap);
        cycle(&mut heap, 4, &[(0, 0)])?;
        shows(&heap, [full(12, 4, 0)]);
        torn_counts(&heap);
    }
    Ok(())
}

/// A number moved from one count to the other: the sum is right, and the counts are not.
#[test]
fn the_sum_alone_is_not_enough() -> Result<()> {
    for size in SegmentSize::ALL {
        let heap = five_states(size)?;
        for segment in 0..5 {
            let [kept, handed_out] = counts_at(&heap, segment);
            let torn = with(&with(&heap, kept, heap.memory()[kept] + 1), handed_out, heap.memory()[handed_out] - 1);
            assert_eq!(records(&torn)[segment].in_use(), records(&heap)[segment].in_use());
            assert!(!sound(&torn));
        }
    }
    Ok(())
}

/// A make whose segment counts 4,294,967,295 blocks handed out is refused Torn. In the heap with all five states a make of class 12 takes
/// its block from segment 0, which is part, one of class 11 from 5, which is free, and one of class 5 from 4, which is held. It asks for no
/// other segment's count, and for none of blocks kept. One less than that number is counted on.
#[test]
fn makes_over_torn_counts() -> Result<()> {
    for size in SegmentSize::ALL {
        let heap = five_states(size)?;
        let takes = [(12, 0), (11, 5), (5, 4)];
        for segment in 0..6 {
            let [kept, handed_out] = counts_at(&heap, segment);
            for (class, from) in takes {
                let expected = if from == segment { Err(Refusal::Torn) } else { Ok(()) };
                assert_eq!(make(&mut with(&heap, handed_out, u32::MAX), 0, Root::R0, class), expected);
                let mut torn = with(&heap, kept, u32::MAX);
                assert_eq!(make(&mut torn, 0, Root::R0, class), Ok(()));
                assert_eq!(torn.memory()[kept], u32::MAX);
            }
        }
        for (class, from) in takes {
            let [_, handed_out] = counts_at(&heap, from);
            let mut torn = with(&heap, handed_out, u32::MAX - 1);
            assert_eq!(make(&mut torn, 0, Root::R0, class), Ok(()));
            assert_eq!(torn.memory()[handed_out], u32::MAX);
            assert_eq!(make(&mut torn, 0, Root::R0, class), Err(Refusal::Torn));
        }
    }
    Ok(())
}

/// The same at every place of the first two words of a bitmap, of every class that somebody holds: at 16 KiB nobody holds class 14.
#[test]
fn makes_over_torn_counts_at_every_place() -> Result<()> {
    for (size, class) in SegmentSize::ALL.into_iter().flat_map(|size| (3..=14).map(move |class| (size, class))) {
        let mut heap = opened(ONE, size)?;
        let [_, handed_out] = counts_at(&heap, 0);
        for _ in 1..size.blocks(class).min(65) {
            makes(&mut heap, class, 1)?;
            assert_eq!(makes(&mut with(&heap, handed_out, u32::MAX), class, 1), Err(Refusal::Torn));
        }
    }
    Ok(())
}

/// A step over a condemned segment, for each pair of these counts: Torn where they are more than its blocks together, no sum wrapping; else
/// it is swept, and its counts are right again, so many blocks being marked.
fn torn_sweeps(heap: &Words, segment: usize, blocks: u32, marked: u32) {
    let [kept_at, handed_out_at] = counts_at(heap, segment);
    let numbers = [0, 1, blocks - 1, blocks, blocks + 1, 1 << 31, u32::MAX - blocks, u32::MAX];
    for (kept, handed_out) in numbers.into_iter().flat_map(|kept| numbers.map(|handed_out| (kept, handed_out))) {
        let mut torn = with(&with(heap, kept_at, kept), handed_out_at, handed_out);
        if u64::from(kept) + u64::from(handed_out) > u64::from(blocks) {
            assert_eq!(torn.step(), Err(Refusal::Torn), "{kept} and {handed_out} of {blocks}");
        } else {
            assert!(matches!(torn.step(), Ok(Step::Swept { segment: swept, .. }) if swept as usize == segment));
            let record = look(&torn)[segment];
            assert_eq!((record.kept, record.handed_out), (marked, 0));
        }
    }
}

/// Segments 2 and 3 of the heap with all five states, of which 2 was part; and a full segment of each class, with no record marked, or one.
#[test]
fn sweeps_over_torn_counts() -> Result<()> {
    for size in SegmentSize::ALL {
        let mut heap = five_states(size)?;
        mark(&mut heap, 10);
        torn_sweeps(&heap, 2, 8, 0);
        assert_eq!(heap.step(), Ok(Step::Swept { segment: 2, freed: 4 }));
        torn_sweeps(&heap, 3, 4, 3);
        for (class, alive) in (3..=14).flat_map(|class| [(class, 0), (class, 1)]) {
            let (mut heap, blocks) = (opened(ONE, size)?, size.blocks(class));
            makes(&mut heap, class, blocks)?;
            heap.mutator(id(0)).clear(root(alive))?; // root 0 has the last record, root 1 none
            heap.start()?;
            handshakes(&mut heap)?;
            mark(&mut heap, alive);
            torn_sweeps(&heap, 0, blocks, alive);
        }
    }
    Ok(())
}

/// A list of calls from one seed, by three mutators and the collector.
struct List {
    heap: Words,
    classes: &'static [u32],
    seed: u64,
    records: Vec<SegmentRecord>,
    /// The calls' own totals since the opening.
    made: u64,
    freed: u64,
    seen: Seen,
}

/// What the list has met, so that it is not empty of anything.
#[derive(Clone, Copy, Debug, Default)]
struct Seen {
    to_part: u32,
    to_full: u32,
    to_free: u32,
    no_room: u32,
    /// Makes that filled their segment, and makes that left a place with kept blocks before it.
    filled: u32,
    past_kept: u32,
}

fn counts_of(record: &SegmentRecord) -> (u32, u32) {
    (record.kept, record.handed_out)
}

impl List {
    fn new(segments: Segments, size: SegmentSize, classes: &'static [u32], seed: u64) -> Result<List> {
        let mut heap = opened(segments, size)?;
        heap.attach(id(1))?;
        heap.attach(id(2))?;
        let records = look(&heap);
        Ok(List { heap, classes, seed, records, made: 0, freed: 0, seen: Seen::default() })
    }

    /// A number by a xorshift.
    fn below(&mut self, n: u32) -> u32 {
        self.seed ^= self.seed << 13;
        self.seed ^= self.seed >> 7;
        self.seed ^= self.seed << 17;
        (self.seed >> 32) as u32 % n
    }

    fn root(&mut self) -> Root {
        root(self.below(16))
    }

    /// The look after a call; the makes less what sweeps freed are the blocks in use. The records before it are answered.
    fn looked(&mut self) -> Vec<SegmentRecord> {
        let before = std::mem::replace(&mut self.records, look(&self.heap));
        assert_eq!(self.records.iter().map(|record| record.in_use()).sum::<u64>(), self.made - self.freed);
        assert!(self.records.iter().all(|record| record.state != SegmentState::Free || *record == FREE));
        before
    }

    /// A call that hands out no block and sweeps nothing changes no count.
    fn no_count_changed(&mut self) {
        let before = self.looked();
        assert!(before.iter().map(counts_of).eq(self.records.iter().map(counts_of)));
    }

    /// A make adds 1 to what one segment has handed out, and changes no other count; refused, it changes none.
    fn make(&mut self, mutator: MutatorId) {
        let (at, to) = (self.below(self.classes.len() as u32), self.root());
        match self.heap.mutator(mutator).make(to, shape_of(self.classes[at as usize])) {
            Ok(()) => self.one_more(),
            refused => {
                self.seen.no_room += u32::from(refused == Err(Refusal::NoRoom));
                self.no_count_changed();
            }
        }
    }

    fn one_more(&mut self) {
        self.made += 1;
        let before = self.looked();
        let both = before.iter().zip(&self.records);
        let changed: Vec<_> = both.filter(|(old, new)| counts_of(old) != counts_of(new)).collect();
        let [(old, new)] = changed[..] else { panic!("{changed:?}") };
        assert_eq!(counts_of(new), (old.kept, old.handed_out + 1));
        self.seen.filled += u32::from(matches!(new.state, SegmentState::Full { .. }));
        self.seen.past_kept += u32::from(matches!(new.state, SegmentState::Held { place, .. } if place > new.handed_out));
    }

    /// A sweep sets the counts of its segment: kept is what was in use less what it freed. Another step changes none.
    fn step(&mut self) -> Result<()> {
        let Step::Swept { segment, freed } = self.heap.step()? else {
            self.no_count_changed();
            return Ok(());
        };
        self.freed += u64::from(freed);
        let before = self.looked();
        for (at, (old, new)) in before.iter().zip(&self.records).enumerate() {
            match at == segment as usize {
                true => assert_eq!((new.in_use(), new.handed_out), (old.in_use() - u64::from(freed), 0)),
                false => assert_eq!(old, new),
            }
        }
        match self.records[segment as usize].state {
            SegmentState::Free => self.seen.to_free += 1,
            SegmentState::Part { .. } => self.seen.to_part += 1,
            _ => self.seen.to_full += 1,
        }
        Ok(())
    }

    /// A call that makes no record and sweeps no segment; whether it is refused does not matter.
    fn other(&mut self, mutator: MutatorId) {
        let (a, b, parent, kind) = (self.root(), self.root(), id(self.below(3)), self.below(40));
        let _ = match kind {
            0..14 => self.heap.mutator(mutator).clear(a),
            14..16 => self.heap.mutator(mutator).copy(a, b),
            16..20 => self.heap.mutator(mutator).store(a, 0, b),
            20..22 => self.heap.mutator(mutator).load(a, b, 0),
            22 => self.heap.mutator(mutator).leave(),
            23..27 => self.heap.mutator(mutator).enter(),
            27..29 => self.heap.attach(mutator).map(drop),
            29 => self.heap.spawn(mutator, parent, a).map(drop),
            30 => self.heap.mutator(mutator).detach(),
            _ => self.heap.start(),
        };
        self.no_count_changed();
    }

    fn turn(&mut self) -> Result<()> {
        let mutator = id(self.below(3));
        match self.below(16) {
            0..4 => self.make(mutator),
            4..7 => self.other(mutator),
            7..9 => {
                let _ = self.heap.mutator(mutator).check();
                self.no_count_changed();
            }
            _ => self.step()?,
        }
        Ok(())
    }
}

/// After every call of a list, from an opening on, the makes that were answered Ok, less the blocks that sweeps answered freed, are the sum
/// of the counts of all segments; and each call changes the counts that it may change, and no other.
#[test]
fn made_less_freed_is_in_use() -> Result<()> {
    let lists: [(u64, [u32; 2], &'static [u32]); 4] = [
        (1, [6, 4], &[12, 13, 14]),
        (22, [10, 8], &[11, 12, 13, 14]),
        (333, [16, 10], &[10, 11, 12, 13, 14]),
        (4444, [24, 16], &[3, 5, 10, 11, 12, 13, 14]),
    ];
    let lists = lists.into_iter().flat_map(|(seed, counts, classes)| {
        SegmentSize::ALL.into_iter().zip(counts).map(move |(size, segments)| (seed, segments, size, classes))
    });
    for (seed, segments, size, classes) in lists {
        let mut list = List::new(Segments::new(segments).unwrap(), size, classes, 0x9e37_79b9_7f4a_7c15 ^ seed)?;
        for _ in 0..5000 {
            list.turn()?;
        }
        let Seen { to_part, to_full, to_free, no_room, filled, past_kept } = list.seen;
        let least = [to_part, to_full, to_free, no_room, filled, past_kept].into_iter().min();
        assert!(least > Some(5), "{segments} segments of {} KiB: {:?}", size.kib(), list.seen);
    }
    Ok(())
}

/// The raw look: six words for each segment, the counts the last two.
#[test]
fn the_words_of_the_look() -> Result<()> {
    for (size, [four, eight, small]) in [(SegmentSize::Kib16, [12, 11, 5]), (SegmentSize::Kib32, [13, 12, 6])] {
        let heap = five_states(size)?;
        let mut output = [9; SIX.states_length()];
        raw::states(6, size.kib(), heap.memory(), &mut output)?;
        let used = [[1, four, 1, 0, 1, 1], [3, four, 4, 0, 2, 2], [4, eight, 3, 0, 2, 2], [4, four, 4, 0, 3, 1], [2, small, 1, 0, 0, 1]];
        assert_eq!(output[..30], *used.as_flattened());
        assert_eq!(output[30..], [0; 6]);
    }
    Ok(())
}
