//! One list of calls from an opening on: every call is played on the verified library, on the independent implementation and, where it is
//! a mutator's, on the unbounded heap; answers and looks are compared.

use crate::adopt::{adopt, Adopted};
use crate::blocks::{Blocks, Put};
use crate::bound::{self, Bound};
use crate::calls::*;
use crate::choose::Chooser;
use crate::coverage::{Coverage, Situation};
use crate::cycle::Cycle;
use crate::interface;
use crate::layout::{self, Geometry};
use crate::lent::Lent;
use crate::measure::Measure;
use crate::nothing::OverNothing;
use crate::parts::Parts;
use crate::recent::Recent;
use crate::rng::Rng;
use crate::situations::Facts;
use crate::totals::Totals;
use crate::unbounded::UnboundedHeap;

/// What both implementations are lent; it is kept from list to list, so that an opening meets used memory.
pub struct Pair {
    pub verified: Lent,
    pub independent: Lent,
}

impl Pair {
    pub fn new(g: Geometry, guard: usize) -> Pair {
        Pair { verified: Lent::new(interface::verified(), g, guard), independent: Lent::new(interface::independent(), g, guard) }
    }

    /// Whether the lengths of a call are right for what it names, on one side at least: then it is a call over another heap.
    fn fits(&self, call: &Call) -> bool {
        self.verified.fits(call) || self.independent.fits(call)
    }
}

pub struct List<'a> {
    pub g: Geometry,
    pub pair: &'a mut Pair,
    pub coverage: &'a mut Coverage,
    pub chooser: Chooser,
    pub heap: UnboundedHeap,
    pub blocks: Blocks,
    pub cycle: Cycle,
    pub bound: Bound,
    pub measure: Measure,
    pub nothing: OverNothing,
    pub parts: Parts,
    pub totals: Totals,
    pub phase: u32,
    /// The segments' states at the last comparison.
    pub states: Vec<u32>,
    /// The verified library's memory before a call that may change no word.
    pub shadow: Vec<u32>,
    pub recent: Recent,
    pub rng: Rng,
    pub examine_every: u32,
    /// Calls since the last examination.
    pub unexamined: u32,
    /// The list may end early, in this phase; in idle, with a full or part segment, else in a cycle that began with one.
    pub until: Option<u32>,
    /// The list goes on from memory that is found: there is no opening, and the independent implementation stands aside.
    pub alone: bool,
    pub calls: u64,
}

/// The records of one list take no more than this many words, and not less than eight heaps.
fn most_words(g: Geometry) -> usize {
    (4 << 20).max(8 * g.segment_words() * g.n())
}

impl<'a> List<'a> {
    pub fn new(pair: &'a mut Pair, coverage: &'a mut Coverage, chooser: Chooser, seed: u64, examine_every: u32) -> List<'a> {
        let g = chooser.plan.g;
        List {
            g,
            pair,
            coverage,
            chooser,
            heap: UnboundedHeap::new(),
            blocks: Blocks::new(g),
            cycle: Cycle::new(),
            bound: Bound::new(g),
            measure: Measure::default(),
            nothing: OverNothing::default(),
            parts: Parts::new(g),
            totals: Totals::new(0),
            phase: IDLE,
            states: vec![0; layout::RECORD_WORDS * g.n()],
            shadow: Vec::new(),
            recent: Recent::new(),
            rng: Rng::new(!seed),
            examine_every,
            unexamined: 0,
            until: None,
            alone: false,
            calls: 0,
        }
    }

    /// The list is to end early in this phase.
    pub fn until(mut self, phase: Option<u32>) -> List<'a> {
        self.until = phase;
        self
    }

    /// The list goes on from the memory as it is, which passes the examination.
    pub fn adopt(mut self) -> List<'a> {
        let memory = self.pair.verified.memory.words();
        let Adopted { heap, blocks, cycle } = adopt(memory, self.g);
        (self.heap, self.blocks, self.cycle) = (heap, blocks, cycle);
        self.totals = Totals::new(layout::blocks_in_use(memory, self.g));
        self.alone = true;
        self
    }

    fn may_end(&self, due: bool) -> bool {
        self.until == Some(self.phase) && due && !self.nothing.runs() && 4 * self.calls > self.chooser.plan.calls
    }

    /// Plays the whole list; where something differs, says what and lists the last calls.
    pub fn play(&mut self) -> Result<(), String> {
        let outcome = self.play_calls();
        self.coverage.lists += 1;
        outcome.map_err(|fault| format!("call {}: {fault}\nthe last calls:\n{}", self.calls, self.recent))
    }

    fn play_calls(&mut self) -> Result<(), String> {
        if self.alone {
            self.compare_phase()?;
            self.compare_states()?;
            self.compare_sheets()?;
            self.parts.adopt(&self.states);
            self.take_measure()?;
        } else {
            self.open()?;
        }
        while self.calls < self.chooser.plan.calls && self.heap.words() < most_words(self.g) {
            let due = self.phase != IDLE || self.some_due();
            if self.may_end(due) {
                break;
            }
            let call = self.chooser.next(&self.heap, self.phase, due);
            self.calls += 1;
            crate::watchdog::beat();
            match call.wrong_size(self.g) {
                false => self.play_one(&call)?,
                true if self.pair.fits(&call) => {}
                true => self.play_wrong(&call)?,
            }
            self.compare_totals()?;
            self.unexamined += 1;
            if self.unexamined == self.examine_every {
                self.examine()?;
            }
        }
        self.compare_states()?;
        self.compare_sheets()?;
        self.examine()
    }

    /// Whether a segment was full at the last look, or part, which counts more rarely, so that cycles begin with either and with both; with
    /// many segments only eight of them are asked.
    fn some_due(&mut self) -> bool {
        let n = self.g.segments;
        let from = if n > 8 { self.rng.below(n - 7) as usize } else { 0 };
        let parts_too = self.rng.chance(64);
        layout::each_segment(&self.states).skip(from).take(8).any(|state| state[0] == 3 || parts_too && state[0] == 1)
    }

    pub fn right(&self, kind: Kind) -> Call {
        Call::new(kind, self.g, [0; 4])
    }

    /// An opening over random words, or over what the last list left.
    fn open(&mut self) -> Result<(), String> {
        let random = self.rng.chance(600);
        if random {
            let mask = self.rng.pick(&[u32::MAX, u32::MAX, 0, 0xf, 0xfff]);
            let Pair { verified, independent } = &mut *self.pair;
            for word in verified.memory.words_mut().iter_mut().chain(independent.memory.words_mut()) {
                *word = self.rng.word() & mask;
            }
        }
        let answer = self.both(&self.right(Open))?;
        if answer != 0 {
            return Err(format!("open: {}", answer_words(Open, answer)));
        }
        self.coverage.met(if random { Situation::OpenOverRandom } else { Situation::OpenOverUsed });
        self.compare_phase()?;
        self.compare_states()?;
        if self.states.iter().any(|&word| word != 0) || self.phase != IDLE {
            return Err("an opening left a segment that is not free, or a phase that is not idle".into());
        }
        self.compare_sheets()?;
        self.examine()
    }

    /// Plays a call on both and compares the answers.
    pub fn both(&mut self, call: &Call) -> Result<u64, String> {
        let first = self.pair.verified.play(call);
        let second = if self.alone { first } else { self.pair.independent.play(call) };
        self.recent.push(call, first);
        self.coverage.count(call.kind, first);
        if first != second {
            let (first, second) = (answer_words(call.kind, first), answer_words(call.kind, second));
            return Err(format!("{call}: verified {first}, independent {second}"));
        }
        Ok(first)
    }

    fn play_one(&mut self, call: &Call) -> Result<(), String> {
        let expected = call.kind.is_mutators().then(|| self.heap.answer(call));
        let around = matches!(call.kind, Start | Detach) || (call.kind == Step && self.phase == SWEEP);
        let sheets = self.sheets_due(around);
        if around {
            self.compare_states()?;
        }
        if around && sheets {
            self.compare_sheets()?;
        }
        if call.kind == Start {
            self.parts.remember(self.pair.verified.memory.words());
        }
        let watched = self.watch(call, expected);
        let facts = Facts::see(self.pair.verified.memory.words(), self.phase, call, &self.heap);
        let lent = (call.kind == Step).then(|| bound::Lent::see(self.pair.verified.memory.words(), self.g));
        let answer = self.both(call)?;
        self.chooser.heard(call, answer);
        self.totals.heard(call, answer);
        if let Some(expected) = expected {
            self.compare_unbounded(call, expected, answer)?;
        }
        if watched && (refusal(answer) != 0 || call.kind.only_reads()) {
            self.unchanged(call)?;
        }
        self.refused_rightly(call, answer, &facts)?;
        self.nothing.note(call, answer, self.coverage);
        if refusal(answer) == 0 {
            let memory = self.pair.verified.memory.words();
            facts.note(memory, call, answer, self.coverage);
            if let Some(lent) = lent {
                self.bound.stepped(&lent, answer, memory, &mut self.coverage.bound)?;
                if step_kind(answer) == TRACED && lent.traces() == Some((layout::LOWEST, self.g.most_blocks() - 1)) {
                    self.coverage.met(Situation::LastBlockTraced);
                }
            }
            self.performed(call, answer)?;
        }
        self.compare_top()?;
        if self.g.segments <= 4 || self.rng.below(self.g.segments) == 0 {
            self.compare_states()?;
        }
        match sheets {
            true => self.compare_sheets(),
            false => Ok(()),
        }
    }

    /// A call with a wrong count, size or length: refused 1 and nothing changes.
    fn play_wrong(&mut self, call: &Call) -> Result<(), String> {
        let watched = self.rng.below(2 * self.g.segments) == 0;
        let extra = |lent: &Lent| (lent.output.words().to_vec(), lent.scratch.words().to_vec(), lent.sheet.bytes().to_vec());
        let before = (watched && call.has_extra()).then(|| extra(&self.pair.verified));
        if watched {
            self.remember();
        }
        let answer = self.both(call)?;
        if answer != u64::from(SIZE) {
            return Err(format!("{call}: {}, not refused 1", answer_words(call.kind, answer)));
        }
        self.coverage.count_wrong(call, self.g);
        if watched {
            self.unchanged(call)?;
        }
        if before.is_some_and(|before| before != extra(&self.pair.verified)) {
            return Err(format!("{call}: refused 1, and its output or scratch changed"));
        }
        Ok(())
    }

    /// The unbounded heap's answer, unless the call is struck out; and its change.
    fn compare_unbounded(&mut self, call: &Call, expected: u64, answer: u64) -> Result<(), String> {
        let struck = matches!(refusal(answer), NO_ROOM | NOT_NOW) && refusal(expected) == 0;
        if struck {
            return Ok(());
        }
        if answer != expected {
            let (answer, expected) = (answer_words(call.kind, answer), answer_words(call.kind, expected));
            return Err(format!("{call}: verified {answer}, unbounded heap {expected}"));
        }
        if refusal(answer) == 0 {
            self.cycle.perform(call, &self.heap);
            self.heap.perform(call);
        }
        Ok(())
    }

    /// Refusals 10 and 11 come exactly when document 01's condition holds, as far as phase and states tell; 13, and any that the header
    /// does not list for the call, never.
    fn refused_rightly(&mut self, call: &Call, answer: u64, facts: &Facts) -> Result<(), String> {
        let handshake = matches!(self.phase, SYNC1 | SYNC2);
        let right = match (call.kind, refusal(answer)) {
            (_, TORN) => false,
            (kind, number @ 1..) if !kind.may_refuse().contains(&number) => false,
            (Attach | Spawn | Detach, 0) => !handshake,
            (Attach | Spawn | Detach, NOT_NOW) => handshake,
            (Start, NOT_NOW) => {
                facts.start_refused(self.coverage);
                self.phase != IDLE
            }
            (Start, 0) => self.phase == IDLE,
            (Make, NO_ROOM) => {
                self.compare_states()?;
                let (m, class) = (call.args[0], layout::class_of(call.args[2] + call.args[3]));
                let room = |state: &[u32]| state[0] == 0 || state[..2] == [1, class] || (state[..2] == [2, class] && state[3] == m);
                self.parts.no_room(&self.states, class, self.phase, self.coverage);
                !layout::each_segment(&self.states).any(room)
            }
            _ => true,
        };
        match right {
            true => Ok(()),
            false => Err(format!("{call}: {} in phase {}", answer_words(call.kind, answer), self.phase)),
        }
    }

    /// What follows from a call that was not refused.
    fn performed(&mut self, call: &Call, answer: u64) -> Result<(), String> {
        match call.kind {
            Make => self.made(call),
            Detach => self.detached(call.args[0]),
            States => self.same_states(),
            Sheet => self.same_sheets(),
            Start => self.started(),
            Step => self.stepped(answer),
            _ => Ok(()),
        }
    }

    fn started(&mut self) -> Result<(), String> {
        self.coverage.cycles += 1;
        let condemned = layout::each_segment(&self.states).filter(|state| matches!(state[0], 1 | 3)).count();
        match condemned {
            0 => self.coverage.met(Situation::StartOverNothing),
            1 => {}
            _ => self.coverage.met(Situation::CycleOverManySegments),
        }
        self.nothing = OverNothing::begin(self.pair.verified.memory.words(), self.g, condemned);
        self.bound.start(self.pair.verified.memory.words());
        self.blocks.start(&self.states, &mut self.heap);
        self.parts.start(&self.states);
        self.parts.note_start(self.coverage);
        self.cycle.start();
        self.moved_to(SYNC1)?;
        let before = self.states.clone();
        self.compare_states()?;
        self.parts.started(self.pair.verified.memory.words(), &before, &self.states)
    }

    /// What the mutator held, at most eleven segments at 16 KiB and twelve at 32, is part with its class, place and counts; every other segment
    /// is as it was.
    fn detached(&mut self, m: u32) -> Result<(), String> {
        let before = self.states.clone();
        self.compare_states()?;
        let mut given = 0;
        for (segment, (was, is)) in layout::each_segment(&before).zip(layout::each_segment(&self.states)).enumerate() {
            let held = was[0] == 2 && was[3] == m;
            let part = [1, was[1], was[2], 0, was[4], was[5]];
            if is != if held { &part[..] } else { was } {
                return Err(format!("detach({m}): segment {segment} was {was:?} and is {is:?}"));
            }
            if held {
                self.parts.given_back(segment, self.phase, self.coverage);
                given += 1;
            }
        }
        match (given, self.g.kib) {
            (13.., _) | (12, 16) => return Err(format!("detach({m}) handed back {given} segments")),
            (12, _) => self.coverage.met(Situation::DetachGivesBackTwelve),
            (11, 16) => self.coverage.met(Situation::DetachGivesBackEleven),
            _ => {}
        }
        Ok(())
    }

    fn made(&mut self, call: &Call) -> Result<(), String> {
        let [m, to, pointers, values] = call.args;
        let class = layout::class_of(pointers + values);
        let memory = self.pair.verified.memory.words();
        let root = layout::root(memory, m, to);
        let Put { segment, other_class } = self.blocks.put(memory, class, root, self.heap.records.len() as u32)?;
        let state = layout::segment(memory, self.g, segment);
        let at = layout::RECORD_WORDS * segment as usize;
        self.counted_out(call, segment, &state, other_class)?;
        self.bound.made();
        self.parts.made(segment, class, other_class, self.coverage);
        if self.g.blocks(class) == 1 {
            if state[0] != 3 {
                return Err(format!("{call}: segment {segment} has one block and is {state:?}"));
            }
            self.coverage.met(Situation::MakeFullAtOnce);
        }
        if state[0] == 3 && self.nothing.runs() {
            self.coverage.met(Situation::FilledOverNothing);
        }
        if state[0] != self.states[at] || state[3] != self.states[at + 3] {
            self.compare_states()?;
        }
        Ok(())
    }

    /// The segment of a make has the counts of the calls. One that was of another class before was free: nothing in it is kept, and this is
    /// its first block.
    fn counted_out(&mut self, call: &Call, segment: u32, state: &[u32], other_class: bool) -> Result<(), String> {
        let (counts, due) = (layout::counts_of(state), self.blocks.counts(segment as usize));
        if counts != due || other_class && counts != [0, 1] {
            return Err(format!("{call}: segment {segment} is {state:?}, and its counts are {due:?} by the calls"));
        }
        if other_class {
            self.coverage.met(Situation::FreedTakenByAnotherClass);
        }
        if counts[0] > 0 {
            self.coverage.met(Situation::MakeBesideKept);
        }
        Ok(())
    }

    fn stepped(&mut self, answer: u64) -> Result<(), String> {
        let expected = self.cycle.step(&self.heap, &self.blocks, &self.states);
        if answer != expected {
            let (answer, expected) = (answer_words(Step, answer), answer_words(Step, expected));
            return Err(format!("step: verified {answer}, by document 01 {expected}"));
        }
        self.nothing.stepped(self.phase, step_kind(answer))?;
        self.measure.stepped(answer)?;
        match step_kind(answer) {
            MOVED => self.moved_to(self.phase + 1),
            DONE => {
                self.moved_to(IDLE)?;
                self.compare_states()?;
                self.parts.done(&self.states, self.coverage)?;
                self.nothing.ended(self.pair.verified.memory.words(), self.g)
            }
            SWEPT => {
                self.swept(step_number(answer), step_freed(answer))?;
                self.moved_to(SWEEP)
            }
            _ => self.moved_to(self.phase),
        }
    }

    fn swept(&mut self, segment: u32, freed: u32) -> Result<(), String> {
        let condemned = layout::each_segment(&self.states).position(|state| state[0] == 4);
        if condemned != Some(segment as usize) {
            return Err(format!("segment {segment} swept, the lowest condemned one is {condemned:?}"));
        }
        let at = layout::RECORD_WORDS * segment as usize;
        let before: Vec<u32> = self.states[at..at + layout::RECORD_WORDS].to_vec();
        let memory = self.pair.verified.memory.words();
        let due = self.blocks.swept(memory, segment, &before, freed)?;
        let last = self.g.most_blocks() - 1;
        let was_used = before[1] == layout::LOWEST && self.blocks.is_used(segment, last);
        self.blocks.keep(segment, before[1], |record| self.cycle.is_marked(record));
        if was_used {
            self.coverage.met(if self.blocks.is_used(segment, last) { Situation::LastBlockKept } else { Situation::LastBlockFreed });
        }
        self.coverage.swept += 1;
        self.coverage.freed += u64::from(freed);
        self.coverage.unreached += u64::from(due);
        if due > 0 {
            self.coverage.met(Situation::SweepFreesUnreached);
        }
        if freed < layout::counts_of(&before).iter().sum() {
            self.coverage.met(Situation::ReachedSurvives);
        }
        self.compare_states()?;
        let became = [0, 1, 2, 2, 2][self.states[at] as usize];
        self.coverage.by_class[(before[1] - layout::LOWEST) as usize][became] += 1;
        self.coverage.met(match self.states[at] {
            0 => Situation::SweptToFree,
            1 => Situation::SweptToPart,
            _ => Situation::SweptToFull,
        });
        self.parts.swept(segment, self.states[at], self.coverage)?;
        self.recounted(segment, &before, freed)
    }

    /// A segment after a sweep: kept is what was in use, less what was freed, and nothing is handed out since. With none kept it is free, with
    /// all kept full, else part with place 0; and it is on top of its stack.
    fn recounted(&mut self, segment: u32, before: &[u32], freed: u32) -> Result<(), String> {
        let after = &self.states[layout::RECORD_WORDS * segment as usize..][..layout::RECORD_WORDS];
        let [kept, handed_out] = layout::counts_of(before);
        let (class, blocks) = (before[1], self.g.blocks(before[1]));
        let (record, stack) = match (kept + handed_out).wrapping_sub(freed) {
            0 => ([0; layout::RECORD_WORDS], Some(0)),
            left if left == blocks => ([3, class, blocks, 0, left, 0], None),
            left => ([1, class, 0, 0, left, 0], Some(1 + (class - layout::LOWEST) as usize)),
        };
        let memory = self.pair.verified.memory.words();
        if after != record || stack.is_some_and(|stack| layout::top(memory, self.g, stack) != Some(segment)) {
            return Err(format!("segment {segment}, of which {freed} blocks were freed, was {before:?} and is {after:?}, or not on its stack"));
        }
        if kept > 0 && handed_out > 0 {
            self.coverage.met(Situation::SweptKeptAndHandedOut);
        }
        if handed_out > 0 {
            self.coverage.met(match after[0] {
                0 => Situation::CountsSweptToFree,
                1 => Situation::CountsSweptToPart,
                _ => Situation::CountsSweptToFull,
            });
        }
        Ok(())
    }
}
