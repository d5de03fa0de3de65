//! Request No. 7, how long a cycle can be: after a start, the steps that are neither refused nor answered waiting are
//! at most B + C + 4; each traced answer belongs to a different block; and waiting is answered for the mutators inside
//! that owe, and only while there is one. All of it by the library's answers and by its memory.

use crate::calls::*;
use crate::layout::{self, Geometry};
use crate::situations::owes;

/// What was seen of it.
#[derive(Clone, Default)]
pub struct Seen {
    /// Cycles from their start to done; of them those of B + C + 4 steps, and those of more than that with the blocks
    /// in use at the start for B.
    cycles: u64,
    reached: u64,
    beyond_start: u64,
    /// Traced answers whose block was compared, answers Waiting, and other answers of a handshake.
    traced: u64,
    waits: u64,
    moves: u64,
    /// How often the measure of `measure.rs` was compared with an earlier one.
    pub measured: u64,
}

impl Seen {
    pub fn print(&self) {
        let Seen { cycles, reached, beyond_start, traced, waits, moves, measured } = self;
        let steps = format!("{reached} reach it, {beyond_start} exceed it with the B of their start");
        let others = format!("{traced} traced blocks, {waits} waits, {moves} moves, {measured} times the steps left");
        println!("  {cycles} cycles within B + C + 4 steps, {steps}; {others}");
    }

    /// What a whole campaign must have met and did not.
    pub fn missing(&self) -> Vec<String> {
        let met = [
            (self.reached, "a cycle of B + C + 4 steps"),
            (self.beyond_start, "a cycle of more steps than the blocks in use at its start, C and 4"),
            (self.traced, "a traced block compared"),
            (self.waits, "an answer Waiting compared with who owes"),
            (self.moves, "a handshake that moves on compared with who owes"),
            (self.measured, "a measure of the steps left compared with an earlier one"),
        ];
        met.into_iter().filter(|(count, _)| *count == 0).map(|(_, what)| what.into()).collect()
    }
}

/// The block whose record the last entry of the trace stack names, which a step in mark traces.
#[derive(Debug)]
struct Top {
    segment: u32,
    class: u32,
    block: u32,
    /// The number of its mark bit.
    bit: usize,
    in_use: bool,
}

impl Top {
    fn see(memory: &[u32], g: Geometry) -> Option<Top> {
        let last = layout::trace_count(memory).checked_sub(1)?;
        let word = layout::trace_entry(memory, g, last).checked_sub(1)?;
        let words = g.segment_words() as u32;
        let (segment, within) = (word / words, word % words);
        if segment >= g.segments {
            return None;
        }
        let class = layout::segment(memory, g, segment)[1];
        let (block, bit) = ((within * 4) >> class, word as usize / 2);
        let begins = (block << class) / 4 == within && layout::mark_bit(g, segment, class, block) == bit;
        Some(Top { segment, class, block, bit, in_use: begins && layout::in_use(memory, g, segment, block) })
    }
}

/// What a step is lent, as far as its answer tells of it.
pub struct Lent {
    phase: u32,
    /// How many mutators are inside and owe an acknowledgement.
    owing: u32,
    top: Option<Top>,
}

impl Lent {
    pub fn see(memory: &[u32], g: Geometry) -> Lent {
        let phase = layout::phase(memory);
        let owing = |m: &u32| layout::side(memory, *m) == 1 && owes(phase, layout::acknowledgements(memory, *m));
        let owing = if matches!(phase, SYNC1 | SYNC2) { (0..32).filter(owing).count() as u32 } else { 0 };
        Lent { phase, owing, top: (phase == MARK).then(|| Top::see(memory, g)).flatten() }
    }

    /// The class and the block of the record that a step in mark traces.
    pub fn traces(&self) -> Option<(u32, u32)> {
        self.top.as_ref().map(|top| (top.class, top.block))
    }

    /// Waiting is answered in a handshake, for as many as owe, and for one at least; where nobody owes, it moves on.
    fn waits(&self, answer: u64, seen: &mut Seen) -> Result<(), String> {
        let handshake = matches!(self.phase, SYNC1 | SYNC2);
        let right = match step_kind(answer) {
            WAITING => handshake && self.owing > 0 && step_number(answer) == self.owing,
            kind => !handshake || self.owing == 0 && kind == MOVED,
        };
        seen.waits += u64::from(step_kind(answer) == WAITING);
        seen.moves += u64::from(handshake && step_kind(answer) == MOVED);
        if right {
            return Ok(());
        }
        Err(format!("step: {} in phase {}, where {} owe", answer_words(Step, answer), self.phase, self.owing))
    }
}

/// The blocks in use when the phase became mark.
struct AtMark {
    /// B: how many.
    blocks: u64,
    /// By segment: its class, and a bit for each of its blocks, in so many words.
    classes: Vec<u32>,
    used: Vec<u32>,
    words: usize,
}

impl AtMark {
    fn see(memory: &[u32], g: Geometry) -> AtMark {
        let words = g.mark_words();
        let mut used = vec![0; words * g.n()];
        for (number, words) in (0..g.segments).zip(used.chunks_exact_mut(words)) {
            words.iter_mut().zip(layout::used(memory, g, number)).for_each(|(word, bits)| *word = bits);
        }
        let classes = layout::each_segment(layout::all_records(memory, g)).map(|record| record[1]).collect();
        AtMark { blocks: used.iter().map(|word| u64::from(word.count_ones())).sum(), classes, used, words }
    }

    fn has(&self, top: &Top) -> bool {
        let Top { segment, class, block, .. } = *top;
        let word = self.used[self.words * segment as usize + block as usize / 32];
        self.classes[segment as usize] == class && word >> (block % 32) & 1 == 1
    }
}

/// The blocks in use by the counts of a look.
fn counted(states: &[u32]) -> u64 {
    layout::each_segment(states).flat_map(layout::counts_of).map(u64::from).sum()
}

/// The most blocks that can be in use when the phase next becomes mark, by a look in idle or in a handshake: of a
/// condemned segment those in use, as no make takes it, of another that is not free all its blocks, and of a free one
/// those of class 3.
fn most_at_mark(g: Geometry, states: &[u32]) -> u64 {
    let most = |state: &[u32]| match state[0] {
        0 => u64::from(g.most_blocks()),
        4 => counted(state),
        _ => u64::from(g.blocks(state[1])),
    };
    layout::each_segment(states).map(most).sum()
}

/// A cycle since its start.
struct Cycle {
    /// C, and the blocks in use just after the start.
    condemned: u64,
    at_start: u64,
    /// The makes until mark, and the most blocks that may then be in use.
    made: u64,
    most: u64,
    at_mark: Option<AtMark>,
    /// The mark bits of the blocks that were traced.
    traced: Vec<bool>,
    /// The steps that are neither refused nor answered waiting.
    steps: u64,
}

impl Cycle {
    fn start(memory: &[u32], g: Geometry) -> Cycle {
        let states = layout::all_records(memory, g);
        let condemned = layout::each_segment(states).filter(|state| state[0] == 4).count() as u64;
        let at_start = layout::blocks_in_use(memory, g);
        let traced = vec![false; g.most_blocks() as usize * g.n()];
        Cycle { condemned, at_start, made: 0, most: most_at_mark(g, states), at_mark: None, traced, steps: 0 }
    }

    /// With so many blocks for B.
    fn bound(&self, blocks: u64) -> u64 {
        blocks + self.condemned + 4
    }

    /// At every point of the cycle, and fewer before it is done; before mark B is 0.
    fn within(&self, done: bool) -> Result<(), String> {
        let blocks = self.at_mark.as_ref().map_or(0, |at| at.blocks);
        match self.steps + u64::from(!done) <= self.bound(blocks) {
            true => Ok(()),
            false => Err(format!("{} steps of a cycle, with B {blocks} and C {}", self.steps, self.condemned)),
        }
    }

    /// Before mark a block comes in use by a make alone, and none becomes free. B is the sum of the counts too.
    fn became_mark(&mut self, memory: &[u32], g: Geometry) -> Result<(), String> {
        let at = AtMark::see(memory, g);
        let (blocks, states) = (at.blocks, layout::all_records(memory, g));
        if blocks != counted(states) || blocks != self.at_start + self.made || blocks > self.most {
            let Cycle { at_start, made, most, .. } = self;
            return Err(format!("{blocks} blocks in use at mark, {at_start} before it, {made} made, at most {most}"));
        }
        self.at_mark = Some(at);
        Ok(())
    }

    /// The block is in use, and was when the phase became mark; and no step of the cycle traced it before.
    fn traces(&mut self, top: Option<&Top>) -> Result<(), String> {
        let was_used = |top: &Top| self.at_mark.as_ref().is_some_and(|at| at.has(top));
        match top {
            Some(top) if top.in_use && was_used(top) && !self.traced[top.bit] => {
                self.traced[top.bit] = true;
                Ok(())
            }
            _ => Err(format!("a step traced {top:?}, which is not in use, was not at mark, or was traced before")),
        }
    }

    fn done(&self, seen: &mut Seen) {
        seen.cycles += 1;
        seen.reached += u64::from(self.at_mark.as_ref().is_some_and(|at| self.steps == self.bound(at.blocks)));
        seen.beyond_start += u64::from(self.steps > self.bound(self.at_start));
    }
}

/// The cycle that runs, where its start was seen.
pub struct Bound {
    g: Geometry,
    cycle: Option<Cycle>,
}

impl Bound {
    pub fn new(g: Geometry) -> Bound {
        Bound { g, cycle: None }
    }

    /// A cycle has begun, over the memory as its start left it.
    pub fn start(&mut self, memory: &[u32]) {
        self.cycle = Some(Cycle::start(memory, self.g));
    }

    /// A make was not refused.
    pub fn made(&mut self) {
        if let Some(cycle) = self.cycle.as_mut().filter(|cycle| cycle.at_mark.is_none()) {
            cycle.made += 1;
        }
    }

    /// A step was not refused: what it was lent, its answer, and the memory that it left.
    pub fn stepped(&mut self, lent: &Lent, answer: u64, memory: &[u32], seen: &mut Seen) -> Result<(), String> {
        lent.waits(answer, seen)?;
        let kind = step_kind(answer);
        let Some(cycle) = self.cycle.as_mut().filter(|_| kind != WAITING) else { return Ok(()) };
        cycle.steps += 1;
        match (lent.phase, layout::phase(memory)) {
            (SYNC1, _) => cycle.most = cycle.most.min(most_at_mark(self.g, layout::all_records(memory, self.g))),
            (SYNC2, MARK) => cycle.became_mark(memory, self.g)?,
            _ => {}
        }
        if kind == TRACED {
            cycle.traces(lent.top.as_ref())?;
            seen.traced += 1;
        }
        cycle.within(kind == DONE)?;
        if kind == DONE {
            cycle.done(seen);
            self.cycle = None;
        }
        Ok(())
    }
}
