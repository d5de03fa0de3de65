//! Counters of torn memory, beside those by kind and answer: what the examination said, and which class words, tags and counts the calls met.

use crate::calls::*;
use crate::damage::{AIMS, CLASS_WORDS, COUNT_VALUES, TAG_WORDS};
use crate::layout::STATES;
use crate::sheet::OverTorn;

type ByKind = [u64; KINDS];
/// One for each value of a torn count.
type ByValue<T> = [T; COUNT_VALUES.len()];
const COUNTS: [&str; 2] = ["kept", "handed out"];
const STATE_WORDS: [&str; STATES] = ["free", "part", "held", "full", "condemned"];

#[derive(Default)]
pub struct Tally {
    pub cases: u64,
    pub said_yes: u64,
    pub said_no: u64,
    pub consistent_calls: u64,
    pub refused_unchanged: u64,
    /// By class word and kind: calls while a segment's record had that class word; by tag and kind: the same.
    pub class_words: [ByKind; CLASS_WORDS.len()],
    pub tag_words: [ByKind; TAG_WORDS.len()],
    /// By count, value and kind: calls while a segment's record had that count, and it was wrong. By state and kind: the same.
    pub values: [ByValue<ByKind>; 2],
    pub states: [ByKind; STATES],
    /// Where all but counts was in order: examinations that said no while that count stood, by count and value and by state; all that said
    /// no, and that said yes; calls since a count was torn; of them the makes, the sweeps and the sheets that were refused 13.
    pub alone_values: [ByValue<u64>; 2],
    pub alone_states: [u64; STATES],
    pub alone: [u64; 2],
    pub alone_calls: u64,
    pub alone_refused: [u64; 3],
    /// By what was torn alone: examinations that said no, and calls by kind since; starts over part stacks' counts of any value.
    pub aimed: [u64; AIMS.len()],
    pub aims: [ByKind; AIMS.len()],
    pub aimed_starts: u64,
    pub sheets: OverTorn,
}

fn fewest<'a>(counts: impl IntoIterator<Item = &'a u64>) -> u64 {
    counts.into_iter().min().copied().unwrap_or(0)
}

/// The kinds that have no call.
fn never(counts: &ByKind) -> impl Iterator<Item = Kind> + '_ {
    ALL_KINDS.into_iter().filter(|&kind| counts[kind as usize] == 0)
}

impl Tally {
    pub fn print(&self) {
        println!(
            "  {} cases; the examination said yes {} times and no {} times; {} calls on memory that passed it; {} refused calls that changed no word",
            self.cases, self.said_yes, self.said_no, self.consistent_calls, self.refused_unchanged
        );
        let class_words = fewest(self.class_words.iter().flatten());
        println!("  {} class words in torn records, each met by every kind of call, at least {class_words} times", CLASS_WORDS.len());
        let tag_words = fewest(self.tag_words.iter().flatten());
        println!("  {} tags that are no state's in torn records, each met by every kind of call, at least {tag_words} times", TAG_WORDS.len());
        let (values, states) = (fewest(self.values.iter().flatten().flatten()), fewest(self.states.iter().flatten()));
        println!(
            "  {} values of each count in torn records, met by every kind of call at least {values} times, and in each state {states} times",
            COUNT_VALUES.len()
        );
        self.print_alone();
        self.sheets.print();
    }

    fn print_alone(&self) {
        let ([no, yes], [makes, sweeps, sheets]) = (self.alone, self.alone_refused);
        let least = fewest(self.alone_values.iter().flatten().chain(&self.alone_states));
        println!("  all but counts in order: it said yes {yes} times and no {no} times, for each value and in each state at least {least} times");
        let refused = format!("{makes} makes, {sweeps} sweeps and {sheets} sheets refused 13 for them");
        println!("  {} calls on memory whose counts alone were torn; {refused}", self.alone_calls);
        let met = fewest(self.aims.iter().flatten());
        for (aim, no) in AIMS.iter().zip(self.aimed) {
            println!("  {aim}: it said no {no} times");
        }
        println!("  each of these met by every kind of call at least {met} times; {} starts over torn counts of part stacks", self.aimed_starts);
    }

    /// What a whole campaign must have met and did not.
    pub fn missing(&self) -> Vec<String> {
        let mut missing = self.missing_counts();
        for (word, counts) in CLASS_WORDS.iter().zip(&self.class_words) {
            missing.extend(never(counts).map(|kind| format!("{kind:?} over torn memory with the class word {word}")));
        }
        for (word, counts) in TAG_WORDS.iter().zip(&self.tag_words) {
            missing.extend(never(counts).map(|kind| format!("{kind:?} over torn memory with the tag {word}")));
        }
        missing.extend(self.sheets.missing());
        for (state, counts) in STATE_WORDS.iter().zip(&self.states) {
            missing.extend(never(counts).map(|kind| format!("{kind:?} over a torn count of a {state} segment")));
        }
        for (state, _) in STATE_WORDS.iter().zip(self.alone_states).filter(|(_, count)| *count == 0) {
            missing.push(format!("an examination that says no for a count of a {state} segment alone"));
        }
        for (aim, counts) in AIMS.iter().zip(&self.aims) {
            missing.extend(never(counts).map(|kind| format!("{kind:?} over {aim}")));
        }
        if self.aimed_starts == 0 {
            missing.push("a start over torn counts of part stacks".into());
        }
        for (what, _) in ["make", "sweep", "sheet"].iter().zip(self.alone_refused).filter(|(_, count)| *count == 0) {
            missing.push(format!("a {what} refused 13 for a count alone"));
        }
        missing
    }

    fn missing_counts(&self) -> Vec<String> {
        let mut missing = Vec::new();
        for (which, value) in (0..COUNTS.len()).flat_map(|which| (0..COUNT_VALUES.len()).map(move |value| (which, value))) {
            let torn = format!("{} blocks {}", COUNT_VALUES[value], COUNTS[which]);
            missing.extend(never(&self.values[which][value]).map(|kind| format!("{kind:?} over the torn count {torn}")));
            if self.alone_values[which][value] == 0 {
                missing.push(format!("an examination that says no for the count {torn} alone"));
            }
        }
        missing
    }
}
