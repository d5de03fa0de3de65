//! Counters: calls by kind and answer, and the situations that a campaign must have met.

use crate::bound::Seen;
use crate::calls::*;
use crate::layout::{self, Geometry};
use crate::sheet;

macro_rules! situations {
    ($($name:ident),* $(,)?) => {
        #[derive(Clone, Copy, PartialEq, Eq, Debug)]
        pub enum Situation { $($name),* }
        pub const SITUATIONS: &[Situation] = &[$(Situation::$name),*];
    };
}

situations! {
    StoreIdle,
    StoreSync1Owing,
    StoreSync1Acknowledged,
    StoreSync2Owing,
    StoreSync2Acknowledged,
    StoreMark,
    StoreSweep,
    BarrierSync1OldAndNew,
    BarrierSync2OldAndNew,
    BarrierMarkOld,
    MakeIdle,
    MakeSync1,
    MakeSync2Owing,
    MakeSync2Acknowledged,
    MakeMark,
    MakeSweep,
    MakeFromHeld,
    MakeFromPart,
    MakeFromFree,
    MakeFills,
    MakeClass13,
    MakeClass14,
    MakeFullAtOnce,
    LastBlockMade,
    LastBlockTraced,
    LastBlockKept,
    LastBlockFreed,
    SearchClimbsTwoLevels,
    SearchClimbsPast2048,
    TraceStackOverHalf,
    LargestClassPart,
    MakeBesideKept,
    FreedTakenByAnotherClass,
    AttachIdle,
    AttachMark,
    AttachSweep,
    SpawnIdle,
    SpawnMark,
    SpawnSweep,
    DetachIdle,
    DetachMark,
    DetachSweep,
    DetachGivesBack,
    DetachGivesBackEleven,
    DetachGivesBackTwelve,
    CheckOwingSync1,
    CheckOwingSync2,
    LeaveOwingSync1,
    LeaveOwingSync2,
    EnterOwing,
    OutsideAcknowledgedSync1,
    OutsideAcknowledgedSync2,
    StartRefusedSync1,
    StartRefusedSync2,
    StartRefusedMark,
    StartRefusedSweep,
    MovedToSync2,
    MovedToMark,
    MovedToSweep,
    SweptToFree,
    SweptToPart,
    SweptToFull,
    CountsSweptToFree,
    CountsSweptToPart,
    CountsSweptToFull,
    SweptKeptAndHandedOut,
    WaitingForOne,
    WaitingForMany,
    CycleOverManySegments,
    PartCondemned,
    OnlyPartsCondemned,
    FullAndPartCondemned,
    PartSweptToFree,
    PartSweptToPart,
    PartMadeInMark,
    PartMadeInSweep,
    PartMadeInCycleStays,
    HeldThroughCycle,
    OverNothingWithHeld,
    NoRoomPartOfClassCondemned,
    NoRoomPartOfOthersCondemned,
    NoRoomPartCondemnedSync1,
    NoRoomPartCondemnedSync2,
    NoRoomPartCondemnedMark,
    NoRoomPartCondemnedSweep,
    RoomAfterSweep,
    RoomOfAnotherClassAfterSweep,
    StartOverNothing,
    WaitingOverNothing,
    TracedOverNothing,
    FilledOverNothing,
    NoRoomOverNothing,
    DoneOverNothing,
    SweepFreesUnreached,
    ReachedSurvives,
    OpenOverRandom,
    OpenOverUsed,
}

/// Whether the situation can come at this size: at 16 KiB a segment of class 14 has one block.
fn comes(situation: Situation, kib: u32) -> bool {
    match situation {
        Situation::MakeFullAtOnce | Situation::DetachGivesBackEleven => kib == 16,
        Situation::SearchClimbsPast2048 | Situation::LargestClassPart | Situation::DetachGivesBackTwelve => kib == 32,
        _ => true,
    }
}

/// What a call that is refused 1 names over the heap's own slice that is not the heap's.
const NAMES: [&str; 4] = ["the other size", "no size", "another count", "no count"];

/// The calls over heaps of one size.
#[derive(Clone)]
pub struct Coverage {
    kib: u32,
    pub calls: u64,
    pub lists: u64,
    pub cycles: u64,
    pub swept: u64,
    pub freed: u64,
    pub unreached: u64,
    pub examined: u64,
    pub watched: u64,
    pub compared_states: u64,
    pub compared_stacks: u64,
    /// How often the blocks in use were counted by places and bits.
    pub counted: u64,
    pub longest_stack: usize,
    /// By class from 3 on: segments swept that became free, part and full.
    pub by_class: [[u64; 3]; layout::CLASSES],
    pub by_kind: [[u64; 14]; KINDS],
    /// By kind: calls with the length that the memory had before request No. 3; and looks at the states with the output's.
    pub former: [u64; KINDS],
    pub former_output: u64,
    /// By what it names wrongly and by kind: calls over the heap's own slice.
    names: [[u64; KINDS]; NAMES.len()],
    pub steps: [u64; 6],
    pub bound: Seen,
    pub sheets: sheet::Seen,
    pub situations: Vec<u64>,
}

impl Coverage {
    pub fn new(kib: u32) -> Coverage {
        Coverage {
            kib,
            calls: 0,
            lists: 0,
            cycles: 0,
            swept: 0,
            freed: 0,
            unreached: 0,
            examined: 0,
            watched: 0,
            compared_states: 0,
            compared_stacks: 0,
            counted: 0,
            longest_stack: 0,
            by_class: [[0; 3]; layout::CLASSES],
            by_kind: [[0; 14]; KINDS],
            former: [0; KINDS],
            former_output: 0,
            names: [[0; KINDS]; NAMES.len()],
            steps: [0; 6],
            bound: Seen::default(),
            sheets: sheet::Seen::default(),
            situations: vec![0; SITUATIONS.len()],
        }
    }

    pub fn met(&mut self, situation: Situation) {
        self.situations[situation as usize] += 1;
    }

    pub fn count(&mut self, kind: Kind, answer: u64) {
        self.calls += 1;
        self.by_kind[kind as usize][(refusal(answer) as usize).min(13)] += 1;
        if kind == Step && refusal(answer) == 0 {
            self.steps[(step_kind(answer) as usize).min(5)] += 1;
        }
    }

    /// Counts what a call that is refused 1 has wrong: a length of the former layout, or what it names over the heap's own slice.
    pub fn count_wrong(&mut self, call: &Call, g: Geometry) {
        let (kind, named) = (call.kind as usize, call.named);
        self.former[kind] += u64::from(call.length == Length::Former);
        self.former_output += u64::from(call.kind == States && call.extra == Length::Former);
        let (count, size) = (named.segments == g.segments, named.kib == g.kib);
        let wrong = [named == g.other_size(), count && !named.is_size(), size && !count && named.is_count(), size && !named.is_count()];
        for (counts, _) in self.names.iter_mut().zip(wrong).filter(|(_, wrong)| *wrong && call.length == Length::Right) {
            counts[kind] += 1;
        }
    }

    /// The kinds of call that never met a length of the former layout, or never named what is not the heap's.
    pub fn missing_wrong(&self) -> Vec<String> {
        let never = |counts: &[u64; KINDS], what: &str| {
            let kinds = ALL_KINDS.into_iter().filter(|&kind| counts[kind as usize] == 0);
            kinds.map(|kind| format!("{kind:?} with {what}")).collect::<Vec<_>>()
        };
        let output = (self.former_output == 0).then(|| "States with the former layout's output".into());
        let names = NAMES.iter().zip(&self.names).flat_map(|(what, counts)| never(counts, what));
        never(&self.former, "the former layout's length").into_iter().chain(output).chain(names).collect()
    }

    /// How often a call named each of what is not the heap's, all kinds together and the fewest of one.
    fn print_names(&self) {
        let said = NAMES.iter().zip(&self.names).map(|(what, counts)| {
            let fewest = counts.iter().min().copied().unwrap_or(0);
            format!("{what} {} times, each kind {fewest} times at least", counts.iter().sum::<u64>())
        });
        println!("  refused 1 over the heap's own slice, for naming {}", said.collect::<Vec<_>>().join("; "));
    }

    fn refusals(&self) -> [u64; 14] {
        let mut sums = [0; 14];
        for counts in &self.by_kind {
            for (sum, count) in sums.iter_mut().zip(counts) {
                *sum += count;
            }
        }
        sums
    }

    /// What a whole campaign must have met and did not.
    pub fn missing(&self) -> Vec<String> {
        let mut missing = Vec::new();
        for kind in ALL_KINDS {
            for &number in kind.may_refuse().iter().filter(|&&number| number != TORN) {
                if self.by_kind[kind as usize][number as usize] == 0 {
                    missing.push(format!("{kind:?} refused {number}"));
                }
            }
            if self.by_kind[kind as usize][0] == 0 {
                missing.push(format!("{kind:?} not refused"));
            }
        }
        missing.extend(self.missing_wrong());
        missing.extend(self.bound.missing());
        missing.extend(self.sheets.missing());
        missing.extend(self.sheets.missing_counts());
        for (class, [free, part, full]) in (layout::LOWEST..).zip(self.by_class) {
            // That all of more than 256 blocks are reached is rare; a segment of one block is never part.
            let blocks = layout::blocks(self.kib, class);
            if free == 0 || part == 0 && blocks > 1 || full == 0 && blocks <= 256 {
                missing.push(format!("a segment of class {class} swept to free, to part and to full"));
            }
        }
        for (name, _) in STEP_KINDS.iter().zip(self.steps).filter(|(_, count)| *count == 0) {
            missing.push(format!("Step answered {name}"));
        }
        for &situation in SITUATIONS {
            if self.situations[situation as usize] == 0 && comes(situation, self.kib) {
                missing.push(format!("{situation:?}"));
            }
        }
        missing
    }

    pub fn print(&self, title: &str) {
        println!("{title}: {} calls", self.calls);
        let numbers: Vec<String> = (1..14).map(|number| format!("{number:>9}")).collect();
        println!("  {:<9}{:>11}{}", "refused:", "no", numbers.join(""));
        for kind in ALL_KINDS {
            let counts = &self.by_kind[kind as usize];
            let cells: Vec<String> = counts[1..].iter().map(|count| format!("{count:>9}")).collect();
            println!("  {:<9}{:>11}{}", format!("{kind:?}"), counts[0], cells.join(""));
        }
        let sums = self.refusals();
        let cells: Vec<String> = sums[1..].iter().map(|count| format!("{count:>9}")).collect();
        println!("  {:<9}{:>11}{}", "all", sums[0], cells.join(""));
        let steps: Vec<String> = STEP_KINDS.iter().zip(self.steps).map(|(name, count)| format!("{name} {count}")).collect();
        println!("  steps: {}", steps.join(", "));
        self.print_names();
    }

    pub fn print_cycles(&self) {
        println!(
            "  {} lists, {} cycles, {} of them over nothing, {} segments swept, {} blocks freed, of them {} unreached when the cycle began",
            self.lists,
            self.cycles,
            self.situations[Situation::StartOverNothing as usize],
            self.swept,
            self.freed,
            self.unreached
        );
        println!(
            "  {} looks at the states compared, {} examinations, {} calls watched to change no word, blocks in use counted by places and bits {} times",
            self.compared_states, self.examined, self.watched, self.counted
        );
        self.bound.print();
        self.sheets.print();
    }

    /// The lines that only lists from an opening on have.
    pub fn print_lists(&self) {
        self.print_cycles();
        self.sheets.print_counts();
        println!("  {} trace stacks compared, the longest of {} entries", self.compared_stacks, self.longest_stack);
        let classes: Vec<String> =
            (layout::LOWEST..).zip(self.by_class).map(|(class, [free, part, full])| format!("{class}: {free}/{part}/{full}")).collect();
        println!("  swept to free/part/full by class: {}", classes.join(", "));
        let come = SITUATIONS.iter().filter(|&&situation| comes(situation, self.kib));
        let met: Vec<String> = come.map(|&situation| format!("{situation:?} {}", self.situations[situation as usize])).collect();
        for line in met.chunks(5) {
            println!("  {}", line.join(", "));
        }
    }
}
