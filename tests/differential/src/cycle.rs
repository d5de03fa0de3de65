//! The collector's cycle by document 01's words, over the unbounded heap's records: acknowledgements, the trace stack, the marks. It says
//! what each step must answer, and which records stand on the trace stack, in order: more than the interface shows.

use crate::blocks::Blocks;
use crate::calls::*;
use crate::layout;
use crate::unbounded::{Reference, UnboundedHeap};

pub struct Cycle {
    phase: u32,
    acknowledged: [u32; 32],
    /// The trace stack, the last entered last.
    pub stack: Vec<Reference>,
    /// For each record the last cycle in which it was entered or born marked.
    entered: Vec<u32>,
    number: u32,
}

impl Cycle {
    pub fn new() -> Cycle {
        Cycle { phase: IDLE, acknowledged: [0; 32], stack: Vec::new(), entered: Vec::new(), number: 0 }
    }

    /// A record that is found in memory, entered or marked in the cycle that runs, or not.
    pub fn adopt_record(&mut self, entered: bool) {
        self.number = 1;
        self.entered.push(u32::from(entered));
    }

    pub fn adopt(&mut self, phase: u32, acknowledged: [u32; 32], stack: Vec<Reference>) {
        self.number = 1;
        (self.phase, self.acknowledged, self.stack) = (phase, acknowledged, stack);
    }

    /// Whether the record is marked, once nothing is left to trace: it was entered in this cycle, or born marked.
    pub fn is_marked(&self, reference: Reference) -> bool {
        reference != 0 && self.entered[reference as usize - 1] == self.number
    }

    fn enter(&mut self, reference: Reference) {
        if reference != 0 && self.entered[reference as usize - 1] != self.number {
            self.entered[reference as usize - 1] = self.number;
            self.stack.push(reference);
        }
    }

    fn owes(&self, mutator: u32) -> bool {
        let given = self.acknowledged[mutator as usize];
        self.phase == SYNC1 && given < 1 || self.phase == SYNC2 && given < 2
    }

    fn check(&mut self, mutator: u32, heap: &UnboundedHeap) {
        if !self.owes(mutator) {
            return;
        }
        self.acknowledged[mutator as usize] += 1;
        if self.phase == SYNC2 {
            for root in heap.mutators[mutator as usize].roots {
                self.enter(root);
            }
        }
    }

    /// A mutator's call that is not refused, just before the unbounded heap performs it.
    pub fn perform(&mut self, call: &Call, heap: &UnboundedHeap) {
        let m = call.args[0] as usize;
        match call.kind {
            Check | Leave => self.check(call.args[0], heap),
            Attach | Spawn => self.acknowledged[m] = if self.phase == MARK { 2 } else { 0 },
            Store => self.store(call, heap),
            Make => {
                let marked = matches!(self.phase, SYNC2 | MARK) && self.acknowledged[m] == 2;
                self.entered.push(if marked { self.number } else { 0 });
            }
            _ => {}
        }
    }

    fn store(&mut self, call: &Call, heap: &UnboundedHeap) {
        let [m, root, field, from] = call.args;
        let old = heap.pointer(m, root, field);
        match self.phase {
            SYNC1 | SYNC2 if self.acknowledged[m as usize] > 0 => {
                self.enter(heap.mutators[m as usize].roots[from as usize]);
                self.enter(old);
            }
            MARK => self.enter(old),
            _ => {}
        }
    }

    pub fn start(&mut self) {
        self.number += 1;
        self.phase = SYNC1;
        self.acknowledged = [0; 32];
    }

    /// What the step must answer; `states` are the segments' states just before it where the phase is sweep.
    pub fn step(&mut self, heap: &UnboundedHeap, blocks: &Blocks, states: &[u32]) -> u64 {
        let (kind, number, freed) = match self.phase {
            IDLE => (0, 0, 0),
            SYNC1 | SYNC2 => self.handshake(heap),
            MARK => self.trace(heap),
            _ => self.sweep(blocks, states),
        };
        u64::from(kind) << 32 | u64::from(number) << 40 | u64::from(freed) << 48
    }

    fn handshake(&mut self, heap: &UnboundedHeap) -> (u32, u32, u32) {
        for m in (0..32).filter(|m| heap.outside >> m & 1 == 1) {
            self.check(m, heap);
        }
        let waiting = (0..32).filter(|m| heap.inside >> m & 1 == 1 && self.owes(*m)).count();
        if waiting > 0 {
            return (WAITING, waiting as u32, 0);
        }
        self.phase += 1;
        (MOVED, 0, 0)
    }

    fn trace(&mut self, heap: &UnboundedHeap) -> (u32, u32, u32) {
        let Some(reference) = self.stack.pop() else {
            self.phase = SWEEP;
            return (MOVED, 0, 0);
        };
        for &pointer in heap.pointers(reference) {
            self.enter(pointer);
        }
        (TRACED, 0, 0)
    }

    fn sweep(&mut self, blocks: &Blocks, states: &[u32]) -> (u32, u32, u32) {
        let Some(segment) = layout::each_segment(states).position(|state| state[0] == 4) else {
            self.phase = IDLE;
            return (DONE, 0, 0);
        };
        let records = blocks.records_in_use(segment, states[layout::RECORD_WORDS * segment + 1]);
        let freed = records.filter(|&record| !self.is_marked(record)).count();
        (SWEPT, segment as u32, freed as u32)
    }
}
