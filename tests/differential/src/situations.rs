//! What was the case just before a call, as far as the coverage counters ask for it.

use crate::calls::*;
use crate::coverage::{Coverage, Situation, Situation::*};
use crate::layout;
use crate::unbounded::{UnboundedHeap, MOST_FIELDS};

#[derive(Clone, Copy)]
pub struct Facts {
    phase: u32,
    acknowledged: u32,
    /// The mutator owes an acknowledgement; some mutator outside does.
    owing: bool,
    outside_owing: bool,
    /// The mutator holds a segment: of the class that a make asks for, or any.
    holds: bool,
    /// The count of the free stack.
    free: u32,
    /// What a store replaces and what it stores are records.
    old: bool,
    new: bool,
    /// The place from which a make searches for its block.
    place: u32,
}

/// Whether a mutator with so many acknowledgements owes one in the phase.
pub fn owes(phase: u32, acknowledged: u32) -> bool {
    phase == SYNC1 && acknowledged < 1 || phase == SYNC2 && acknowledged < 2
}

/// The place of the segment from which a make takes its block; 0 where that is free, or there is none.
fn place(memory: &[u32], call: &Call) -> u32 {
    let [mutator, _, pointers, values] = call.args;
    let fields = pointers.saturating_add(values);
    if call.kind != Make || mutator > 31 || fields > MOST_FIELDS {
        return 0;
    }
    let taken = layout::taken(memory, call.named, mutator, layout::class_of(fields));
    taken.map_or(0, |segment| layout::segment(memory, call.named, segment)[2])
}

/// The blocks that a word of level 1 stands for.
const LEVEL_1: u32 = 32 * 32;

fn holds(memory: &[u32], call: &Call) -> bool {
    let mutator = call.args[0];
    match call.kind {
        Make => {
            let fields = call.args[2].saturating_add(call.args[3]);
            fields <= MOST_FIELDS && layout::held(memory, mutator, layout::class_of(fields)) != 0
        }
        _ => (layout::LOWEST..=layout::HIGHEST).any(|class| layout::held(memory, mutator, class) != 0),
    }
}

impl Facts {
    pub fn see(memory: &[u32], phase: u32, call: &Call, heap: &UnboundedHeap) -> Facts {
        let mutator = call.args[0];
        let known = call.kind.is_mutators() && mutator < 32;
        let acknowledged = if known { layout::acknowledgements(memory, mutator) } else { 0 };
        let handshake = matches!(phase, SYNC1 | SYNC2);
        let outside_owing = call.kind == Step && handshake && {
            let owing = |m: &u32| heap.outside >> m & 1 == 1 && owes(phase, layout::acknowledgements(memory, *m));
            (0..32).any(|m| owing(&m))
        };
        let stores = call.kind == Store && heap.answer(call) == 0;
        let [m, root, field, from] = call.args;
        Facts {
            phase,
            acknowledged,
            owing: known && owes(phase, acknowledged),
            outside_owing,
            holds: known && matches!(call.kind, Make | Detach) && holds(memory, call),
            free: memory[layout::regions(call.named)[4]],
            old: stores && heap.pointer(m, root, field) != 0,
            new: stores && heap.record(m, from).is_some(),
            place: place(memory, call),
        }
    }

    /// Counts what a call that was not refused met.
    pub fn note(&self, memory: &[u32], call: &Call, answer: u64, coverage: &mut Coverage) {
        match call.kind {
            Store => self.stored(coverage),
            Make => self.made(memory, call, coverage),
            Attach => self.by_phase(coverage, AttachIdle, AttachMark, AttachSweep),
            Spawn => self.by_phase(coverage, SpawnIdle, SpawnMark, SpawnSweep),
            Detach => {
                self.by_phase(coverage, DetachIdle, DetachMark, DetachSweep);
                self.met_if(self.holds, DetachGivesBack, coverage);
            }
            Check => {
                self.met_if(self.owing && self.phase == SYNC1, CheckOwingSync1, coverage);
                self.met_if(self.owing && self.phase == SYNC2, CheckOwingSync2, coverage);
            }
            Leave => {
                self.met_if(self.owing && self.phase == SYNC1, LeaveOwingSync1, coverage);
                self.met_if(self.owing && self.phase == SYNC2, LeaveOwingSync2, coverage);
            }
            Enter => self.met_if(self.owing, EnterOwing, coverage),
            Step => self.stepped(answer, coverage),
            _ => {}
        }
    }

    /// Counts a start that was refused 11.
    pub fn start_refused(&self, coverage: &mut Coverage) {
        coverage.met(match self.phase {
            SYNC1 => StartRefusedSync1,
            SYNC2 => StartRefusedSync2,
            MARK => StartRefusedMark,
            _ => StartRefusedSweep,
        });
    }

    fn met_if(&self, condition: bool, situation: Situation, coverage: &mut Coverage) {
        if condition {
            coverage.met(situation);
        }
    }

    fn by_phase(&self, coverage: &mut Coverage, idle: Situation, mark: Situation, sweep: Situation) {
        coverage.met(match self.phase {
            MARK => mark,
            SWEEP => sweep,
            _ => idle,
        });
    }

    fn stored(&self, coverage: &mut Coverage) {
        let both = self.old && self.new;
        coverage.met(match (self.phase, self.acknowledged) {
            (IDLE, _) => StoreIdle,
            (SYNC1, 0) => StoreSync1Owing,
            (SYNC1, _) => StoreSync1Acknowledged,
            (SYNC2, 0 | 1) => StoreSync2Owing,
            (SYNC2, _) => StoreSync2Acknowledged,
            (MARK, _) => StoreMark,
            _ => StoreSweep,
        });
        self.met_if(both && self.phase == SYNC1 && self.acknowledged > 0, BarrierSync1OldAndNew, coverage);
        self.met_if(both && self.phase == SYNC2, BarrierSync2OldAndNew, coverage);
        self.met_if(self.old && self.phase == MARK, BarrierMarkOld, coverage);
    }

    fn made(&self, memory: &[u32], call: &Call, coverage: &mut Coverage) {
        coverage.met(match (self.phase, self.acknowledged) {
            (IDLE, _) => MakeIdle,
            (SYNC1, _) => MakeSync1,
            (SYNC2, 0 | 1) => MakeSync2Owing,
            (SYNC2, _) => MakeSync2Acknowledged,
            (MARK, _) => MakeMark,
            _ => MakeSweep,
        });
        let free = memory[layout::regions(call.named)[4]];
        coverage.met(match self.holds {
            true => MakeFromHeld,
            false if free < self.free => MakeFromFree,
            false => MakeFromPart,
        });
        let class = layout::class_of(call.args[2] + call.args[3]);
        self.met_if(class == 13, MakeClass13, coverage);
        self.met_if(class == 14, MakeClass14, coverage);
        self.met_if(layout::held(memory, call.args[0], class) == 0, MakeFills, coverage);
        self.found(memory, call, class, coverage);
    }

    /// Counts which block a make found, and how far the search went: past the place's word of level 1 it climbs by two levels.
    fn found(&self, memory: &[u32], call: &Call, class: u32, coverage: &mut Coverage) {
        let (g, root) = (call.named, layout::root(memory, call.args[0], call.args[1]));
        let block = ((root.wrapping_sub(1) % g.segment_words() as u32) * 4) >> class;
        let climbs = block / LEVEL_1 != self.place / LEVEL_1;
        self.met_if(climbs, SearchClimbsTwoLevels, coverage);
        self.met_if(climbs && block >= 2048, SearchClimbsPast2048, coverage);
        self.met_if(class == layout::LOWEST && block == g.most_blocks() - 1, LastBlockMade, coverage);
    }

    fn stepped(&self, answer: u64, coverage: &mut Coverage) {
        self.met_if(self.outside_owing && self.phase == SYNC1, OutsideAcknowledgedSync1, coverage);
        self.met_if(self.outside_owing && self.phase == SYNC2, OutsideAcknowledgedSync2, coverage);
        match (step_kind(answer), self.phase) {
            (MOVED, SYNC1) => coverage.met(MovedToSync2),
            (MOVED, SYNC2) => coverage.met(MovedToMark),
            (MOVED, _) => coverage.met(MovedToSweep),
            (WAITING, _) if step_number(answer) == 1 => coverage.met(WaitingForOne),
            (WAITING, _) => coverage.met(WaitingForMany),
            _ => {}
        }
    }
}
