//! Torn memory: every call over memory of any content ends with its kind of result or a refusal that it may give; refused 1 changes
//! nothing; looks keep the memory. Where the examination says yes, no call is refused 13 and no refusal changes a word. Where only counts are
//! torn, it says yes exactly where they are right again, and each call goes by them as they are. Where a condemned segment alone is torn, or a
//! part stack's count, it says no; a start goes by no such count and leaves memory that passes. A sheet follows all damage: it is refused 13
//! exactly where a segment's record has no line, and shows the records else.

use crate::calls::*;
use crate::counts::Around;
use crate::coverage::Coverage;
use crate::damage::{self, TornCount};
use crate::layout::{self, Geometry};
use crate::lent::Lent;
use crate::recent::Recent;
use crate::rng::Rng;
use crate::sizes::{other_name, wrong_length};
use crate::tally::Tally;

pub struct Torn<'a> {
    g: Geometry,
    lent: &'a mut Lent,
    coverage: &'a mut Coverage,
    tally: &'a mut Tally,
    rng: Rng,
    /// Memory, outputs and scratch as they were before the call.
    memory: Vec<u32>,
    output: Vec<u32>,
    scratch: Vec<u32>,
    sheet: Vec<u8>,
    /// The last examination said yes, and every call since keeps that.
    consistent: bool,
    /// All but the counts is in order: the memory passed an examination, and since then only counts were torn.
    in_order: bool,
    /// In this case nothing but counts is torn.
    counts_only: bool,
    longer: bool,
    /// The class word that was put into a segment's record, by number, and where.
    class_word: Option<(usize, usize)>,
    /// The tag that is no state's, in the same way.
    tag_word: Option<(usize, usize)>,
    /// The count that was torn last.
    torn_count: Option<TornCount>,
    /// What was torn alone of a condemned segment or the part stacks, until an opening.
    aim: Option<usize>,
    recent: Recent,
}

impl<'a> Torn<'a> {
    pub fn new(g: Geometry, lent: &'a mut Lent, coverage: &'a mut Coverage, tally: &'a mut Tally, rng: Rng, longer: bool) -> Torn<'a> {
        let scratch = vec![0; lent.scratch.len()];
        lent.scratch.words_mut().fill(0);
        Torn {
            g,
            lent,
            coverage,
            tally,
            rng,
            memory: Vec::new(),
            output: Vec::new(),
            scratch,
            sheet: Vec::new(),
            consistent: false,
            in_order: false,
            counts_only: false,
            longer,
            class_word: None,
            tag_word: None,
            torn_count: None,
            aim: None,
            recent: Recent::new(),
        }
    }

    /// One case: the memory is torn, then `calls` calls are played.
    pub fn play(&mut self, base: &[u32], calls: u32) -> Result<(), String> {
        self.tally.cases += 1;
        self.coverage.lists += 1;
        self.tear(base);
        self.lent.output.words_mut().fill_with(|| self.rng.word());
        self.lent.sheet.bytes_mut().fill_with(|| self.rng.word() as u8);
        self.remember();
        let played = self.play_right(Sheet).and_then(|()| self.play_aimed()).and_then(|()| self.play_calls(calls));
        played.map_err(|fault| format!("{fault}\nthe last calls:\n{}", self.recent))
    }

    /// The memory becomes `base`, which passes the examination, torn: in its counts alone, with an aim, or anywhere.
    fn tear(&mut self, base: &[u32]) {
        self.counts_only = self.rng.chance(192);
        self.in_order = self.counts_only;
        let memory = self.lent.memory.words_mut();
        if self.counts_only {
            memory.copy_from_slice(base);
        } else if self.rng.chance(160) {
            memory.copy_from_slice(base);
            self.aim = Some(damage::tear_aimed(&mut self.rng, memory, self.g));
            return;
        } else {
            damage::tear(&mut self.rng, memory, base, self.g);
            self.class_word = self.rng.chance(256).then(|| damage::tear_class(&mut self.rng, memory, self.g));
            self.tag_word = self.rng.chance(128).then(|| damage::tear_tag(&mut self.rng, memory, self.g));
        }
        if self.counts_only || self.rng.chance(128) {
            self.tear_count();
        }
    }

    fn tear_count(&mut self) {
        self.torn_count = Some(damage::tear_count(&mut self.rng, self.lent.memory.words_mut(), self.g));
        self.consistent = false;
    }

    /// Now and then the memory is torn further. Says whether it was.
    fn tear_again(&mut self) -> bool {
        if self.counts_only && self.rng.chance(24) {
            self.tear_count();
        } else if !self.counts_only && self.rng.chance(8) {
            damage::damage(&mut self.rng, self.lent.memory.words_mut(), self.g);
            (self.consistent, self.in_order) = (false, false);
        } else {
            return false;
        }
        self.remember();
        true
    }

    /// A call without numbers, with the right lengths.
    fn play_right(&mut self, kind: Kind) -> Result<(), String> {
        self.play_one(&Call::new(kind, self.g, [0; 4]))
    }

    fn play_calls(&mut self, calls: u32) -> Result<(), String> {
        self.play_right(Examine)?;
        for _ in 0..calls {
            if self.tear_again() {
                self.play_right(Sheet)?;
            }
            let call = self.choose();
            self.play_one(&call)?;
            if self.consistent && self.rng.chance(100) {
                self.play_right(Examine)?;
            }
        }
        self.play_right(Examine)?;
        self.play_right(Sheet)?;
        match self.lent.guards_hold() {
            true => Ok(()),
            false => Err("a guard word changed".into()),
        }
    }

    /// Torn with an aim alone, the memory fails the examination. Half of the times a start follows in idle: where part stacks' counts were torn,
    /// it goes by none of them, and what it leaves passes.
    fn play_aimed(&mut self) -> Result<(), String> {
        let Some(aim) = self.aim else { return Ok(()) };
        self.play_right(Examine)?;
        if self.consistent {
            return Err(format!("the examination says yes, and there is {}", damage::AIMS[aim]));
        }
        self.tally.aimed[aim] += 1;
        if aim != damage::PART_COUNT || layout::phase(&self.memory) != IDLE || self.rng.chance(512) {
            return Ok(());
        }
        self.play_right(Start)?;
        self.play_right(Examine)?;
        self.tally.aimed_starts += 1;
        match self.consistent && layout::phase(&self.memory) == SYNC1 {
            true => Ok(()),
            false => Err("a start over torn counts of part stacks".into()),
        }
    }

    fn remember(&mut self) {
        self.memory.clear();
        self.memory.extend_from_slice(self.lent.memory.words());
        self.output.clear();
        self.output.extend_from_slice(self.lent.output.words());
        self.sheet.clear();
        self.sheet.extend_from_slice(self.lent.sheet.bytes());
    }

    fn play_one(&mut self, call: &Call) -> Result<(), String> {
        crate::watchdog::beat();
        if call.kind == Examine && self.rng.chance(64) {
            let word = self.rng.word();
            self.lent.scratch.words_mut().fill(word);
            self.scratch.fill(word);
        }
        let answer = self.lent.play(call);
        self.recent.push(call, answer);
        self.coverage.count(call.kind, answer);
        self.meet(call);
        let fault = |what: &str| Err(format!("{call}: {}: {what}", answer_words(call.kind, answer)));
        if !plausible(call, self.g, answer) {
            return fault("an answer that the call may not give");
        }
        if call.wrong_size(self.g) != (refusal(answer) == SIZE) {
            return fault("refused 1 is given exactly for a wrong count or length");
        }
        if self.in_order && !self.goes_by_counts(call, answer) {
            return fault("only counts are wrong, and it does not go by them");
        }
        if !self.kept(call, answer) || !self.kept_sheet(call, answer) {
            return fault("memory, output or scratch changed, or a state that is none");
        }
        if self.consistent && refusal(answer) == TORN {
            return fault("the memory passes the examination");
        }
        if call.kind == Examine && refusal(answer) == 0 {
            return self.examined(result(answer) == 1);
        }
        if call.kind == Sheet && refusal(answer) != SIZE {
            let (passes, refused) = (self.consistent, refusal(answer) == TORN);
            self.tally.sheets.looked(self.g, &self.memory, passes, refused, self.lent.sheet.bytes())?;
        }
        self.tally.consistent_calls += u64::from(self.consistent);
        let opened = call.kind == Open && answer == 0;
        self.aim = self.aim.filter(|_| !opened);
        self.consistent |= opened;
        self.in_order |= opened;
        Ok(())
    }

    /// Counts what a call met: a class word, a torn count, a length of the former layout.
    fn meet(&mut self, call: &Call) {
        if call.wrong_size(self.g) {
            self.coverage.count_wrong(call, self.g);
            return;
        }
        let kind = call.kind as usize;
        if let Some(aim) = self.aim {
            self.tally.aims[aim][kind] += 1;
        }
        if let Some((which, at)) = self.class_word {
            self.tally.class_words[which][kind] += u64::from(self.memory[at] == damage::CLASS_WORDS[which]);
        }
        if let Some((which, at)) = self.tag_word {
            self.tally.tag_words[which][kind] += u64::from(self.memory[at] == damage::TAG_WORDS[which]);
        }
        if let Some((torn, state)) = self.wrong_count() {
            self.tally.values[torn.which][torn.value][kind] += 1;
            self.tally.states[state][kind] += 1;
        }
    }

    /// The torn count and the state of its segment, where it still stands, the state is one, and the count is wrong.
    fn wrong_count(&self) -> Option<(TornCount, usize)> {
        let torn = self.torn_count?;
        let record = layout::segment(&self.memory, self.g, torn.segment);
        let due = layout::counts_due(&self.memory, self.g, torn.segment)?[torn.which];
        let wrong = layout::counts_of(&record)[torn.which] == torn.word && torn.word != due;
        (wrong && (record[0] as usize) < layout::STATES).then_some((torn, record[0] as usize))
    }

    /// What the call does with the counts, where all else is in order. Refused 13, it may leave more than counts out of order, if it is no look.
    fn goes_by_counts(&mut self, call: &Call, answer: u64) -> bool {
        let around = Around { g: self.g, before: &self.memory, after: self.lent.memory.words() };
        if !around.goes_by_counts(call, answer) {
            return false;
        }
        self.tally.alone_calls += u64::from(!self.consistent);
        if refusal(answer) == TORN {
            let which = match call.kind {
                Make => 0,
                Step => 1,
                _ => 2,
            };
            self.tally.alone_refused[which] += 1;
            self.in_order = call.kind.is_look();
        }
        true
    }

    /// The sheet's output is as it was, but for a sheet that is not refused.
    fn kept_sheet(&mut self, call: &Call, answer: u64) -> bool {
        let sheet = self.lent.sheet.bytes();
        if call.kind == Sheet && refusal(answer) == 0 {
            self.sheet.copy_from_slice(sheet);
        }
        self.sheet == sheet
    }

    /// What the call may not change is unchanged; what it may change is remembered.
    fn kept(&mut self, call: &Call, answer: u64) -> bool {
        let refused = refusal(answer);
        let no_word = call.kind.only_reads() || refused == SIZE || (self.consistent && refused != 0);
        if no_word && self.lent.memory.words() != self.memory {
            return false;
        }
        self.tally.refused_unchanged += u64::from(no_word && refused != 0);
        let shows = call.kind == States && refused == 0;
        let shared = |words: &[u32]| self.consistent && layout::shared_of_one_block(self.g, words);
        let state = |words: &[u32]| words[0] == 0 || words[0] <= 4 && layout::is_class(words[1]) && !shared(words);
        let output = self.lent.output.words();
        if shows && (!layout::each_segment(output).all(state) || output != layout::all_records(&self.memory, self.g)) {
            return false;
        }
        if !shows && self.lent.output.words() != self.output {
            return false;
        }
        let examines = call.kind == Examine && refused == 0;
        let scratch = self.lent.scratch.words();
        if call.kind == Examine && (if examines { scratch.iter().any(|&word| word != 0) } else { scratch != self.scratch }) {
            return false;
        }
        if examines {
            self.scratch.fill(0);
        }
        if shows {
            self.output.copy_from_slice(self.lent.output.words());
        }
        if !no_word {
            self.memory.copy_from_slice(self.lent.memory.words());
        }
        true
    }

    fn examined(&mut self, yes: bool) -> Result<(), String> {
        if self.consistent && !yes {
            return Err("the examination says no after calls on memory that passed it".into());
        }
        let right = layout::all_counts_right(&self.memory, self.g);
        if yes && !right {
            return Err("the examination says yes, and a count is wrong".into());
        }
        if yes && !layout::all_trees(&self.memory, self.g) {
            return Err("the examination says yes, and a bit above level 0 of a bitmap, or past the end of a level, is wrong".into());
        }
        if self.in_order && !yes && right {
            return Err("the examination says no, and all is in order".into());
        }
        if self.in_order {
            self.examined_alone(yes);
        }
        self.consistent = yes;
        self.in_order |= yes;
        self.tally.said_yes += u64::from(yes);
        self.tally.said_no += u64::from(!yes);
        Ok(())
    }

    /// Counts what the examination said of memory that is in order but for its counts.
    fn examined_alone(&mut self, yes: bool) {
        self.tally.alone[usize::from(yes)] += 1;
        if let Some((torn, state)) = self.wrong_count() {
            self.tally.alone_values[torn.which][torn.value] += 1;
            self.tally.alone_states[state] += 1;
        }
    }

    /// The next call; one that is wrong is of any kind now and then, as it changes nothing.
    fn choose(&mut self) -> Call {
        let wrong = self.rng.chance(60);
        let kind = match self.rng.below(64) {
            0..16 if wrong => self.rng.pick(&ALL_KINDS),
            0 if self.rng.chance(if self.counts_only { 450 } else { 160 }) => Open,
            1 => Examine,
            2..=11 => Step,
            12..=17 => Make,
            18 | 19 => Check,
            20..=23 => Store,
            _ => self.rng.pick(&ALL_KINDS[1..21]),
        };
        let mut call = Call::new(kind, self.g, self.numbers(kind));
        call.args[kind.arguments()..].fill(0);
        if wrong {
            let right = call;
            self.wrong(&mut call);
            // A call over another heap, in a part of the memory, is none of this one.
            if self.lent.fits(&call) {
                return right;
            }
        }
        call
    }

    fn numbers(&mut self, kind: Kind) -> [u32; 4] {
        let mutator = self.mutator();
        let mut args = [mutator, self.small(16), self.small(16), self.small(16)];
        match kind {
            Make => {
                args[2] = self.size();
                args[3] = self.size();
            }
            Load => {
                args[2] = self.filled(mutator);
                args[3] = self.size();
            }
            Store | Put | Get | Shape => {
                args[1] = self.filled(mutator);
                args[2] = self.size();
            }
            Spawn => {
                args[0] = self.small(33);
                args[1] = mutator;
            }
            _ => {}
        }
        args
    }

    /// Mostly a mutator whose entry says that it is inside.
    fn mutator(&mut self) -> u32 {
        if self.rng.chance(100) {
            return self.small(33);
        }
        let turn = self.rng.below(32);
        let inside = |m: &u32| self.memory[layout::MUTATORS + 32 * *m as usize + 16] == 1;
        (0..32).map(|m| (m + turn) % 32).find(inside).unwrap_or(turn)
    }

    /// Mostly a root of the mutator that is not nil.
    fn filled(&mut self, mutator: u32) -> u32 {
        if mutator > 31 || self.rng.chance(100) {
            return self.small(16);
        }
        let turn = self.rng.below(16);
        let filled = |root: &u32| layout::root(&self.memory, mutator, *root) != 0;
        (0..16).map(|root| (root + turn) % 16).find(filled).unwrap_or(turn)
    }

    fn small(&mut self, bound: u32) -> u32 {
        match self.rng.below(40) {
            0 => self.rng.pick(&[15, 16, 31, 32, u32::MAX]),
            1 => self.rng.word(),
            _ => self.rng.below(bound),
        }
    }

    fn size(&mut self) -> u32 {
        match self.rng.below(8) {
            0 => self.rng.below(4097),
            1 => self.rng.pick(&[511, 512, 1023, 1024, 2047, 2048, 4094, 4095, 4096, 65535, 65536, u32::MAX]),
            2 => self.rng.below(64),
            _ => self.rng.below(6),
        }
    }

    fn wrong(&mut self, call: &mut Call) {
        let (g, longer) = (self.g, self.longer);
        match self.rng.below(6) {
            0 | 1 => call.named = other_name(&mut self.rng, g),
            2 if call.kind == States && self.rng.chance(512) => call.extra = Length::Former,
            2 if call.has_extra() => call.extra = wrong_length(&mut self.rng, g, longer, 40),
            3 => call.length = Length::Former,
            4 => {
                call.named = other_name(&mut self.rng, g);
                call.length = wrong_length(&mut self.rng, g, longer, 40);
            }
            _ => call.length = wrong_length(&mut self.rng, g, longer, 40),
        }
    }
}

/// The answer is a result of the call's kind, or a refusal that the header lists for it.
fn plausible(call: &Call, g: Geometry, answer: u64) -> bool {
    let (refused, result) = (refusal(answer), result(answer));
    if refused != 0 {
        return result == 0 && call.kind.may_refuse().contains(&refused);
    }
    match call.kind {
        Get | Shape => true,
        Same | Examine => result <= 1,
        Phase => result <= SWEEP,
        Step => match (step_kind(answer), step_number(answer), step_freed(answer)) {
            (WAITING, number, 0) => (1..=32).contains(&number),
            (SWEPT, segment, freed) => segment < g.segments && freed <= g.most_blocks(),
            (kind, number, freed) => kind <= DONE && number == 0 && freed == 0,
        },
        _ => result == 0,
    }
}
