//! The next call of a list: guided by what the unbounded heap knows, so that most calls have something to do, and by chance at bounds.

use crate::calls::*;
use crate::profile::Plan;
use crate::rng::Rng;
use crate::unbounded::UnboundedHeap;
use std::collections::VecDeque;
use std::ops::Range;

pub struct Chooser {
    pub plan: Plan,
    pub rng: Rng,
    /// Calls of a pattern that are still to come, and whether the last one was of it.
    pub queue: VecDeque<Call>,
    of_pattern: bool,
    /// While so many calls of it are to come, no other comes between.
    pub calm: Range<usize>,
    /// Steps of a run that are still to come.
    run: u32,
    /// Calls during which room is sought, after a make that found none.
    starved: u32,
}

impl Chooser {
    pub fn new(plan: Plan, rng: Rng) -> Chooser {
        Chooser { plan, rng, queue: VecDeque::new(), of_pattern: false, calm: 0..0, run: 0, starved: 0 }
    }

    /// Hears the answer to a call. A pattern ends with a call of it that is refused.
    pub fn heard(&mut self, call: &Call, answer: u64) {
        if call.kind == Make && refusal(answer) == NO_ROOM && self.plan.relieves {
            self.starved = 48;
        }
        if self.of_pattern && matches!(call.kind, Make | Load | Store) && refusal(answer) != 0 && self.rng.chance(900) {
            self.queue.clear();
        }
    }

    fn call(&self, kind: Kind, args: [u32; 4]) -> Call {
        Call::new(kind, self.plan.g, args)
    }

    /// The next call; `due` says whether some segment was full or part not long ago.
    pub fn next(&mut self, heap: &UnboundedHeap, phase: u32, due: bool) -> Call {
        if self.rng.below(16384) < self.plan.wrong_size {
            return self.wrong(heap);
        }
        self.of_pattern = false;
        let between = !self.queue.is_empty() && !self.calm.contains(&self.queue.len()) && self.rng.chance(256);
        if let Some(call) = between.then(|| self.of_the_cycle(heap, phase, due)).flatten() {
            return call;
        }
        if let Some(call) = self.queued(heap, phase) {
            self.of_pattern = true;
            return call;
        }
        if self.run > 0 && (phase != IDLE || self.rng.chance(64)) {
            self.run -= 1;
            return self.call(Step, [0; 4]);
        }
        self.run = 0;
        if let Some(call) = self.of_the_cycle(heap, phase, due) {
            return call;
        }
        let few = (heap.inside | heap.outside).count_ones() < self.plan.mutators;
        if few && self.rng.chance(256) || heap.inside == 0 && self.rng.chance(800) {
            return self.arriving(heap);
        }
        if self.rng.chance(self.plan.profile.patterns) {
            if let Some(call) = self.pattern(heap) {
                return call;
            }
        }
        let mut kind = self.plan.kind(&mut self.rng);
        if kind == Make && self.starved > 0 && self.rng.chance(700) {
            kind = self.plan.kind(&mut self.rng);
        }
        self.of_kind(kind, heap)
    }

    /// The next call of a pattern; a chain that has ended ends the pattern, and a cycle that has ended its steps.
    fn queued(&mut self, heap: &UnboundedHeap, phase: u32) -> Option<Call> {
        while phase == IDLE && self.queue.front().is_some_and(|call| call.kind == Step) {
            self.queue.pop_front();
        }
        let call = self.queue.pop_front()?;
        if call.kind == Load && heap.record(call.args[0], call.args[2]).is_none() {
            self.queue.clear();
            return None;
        }
        Some(call)
    }

    /// A collector's call or an acknowledgement, at the list's pace; faster where a make found no room.
    fn of_the_cycle(&mut self, heap: &UnboundedHeap, phase: u32, due: bool) -> Option<Call> {
        let hurry = if self.starved > 0 { 200 } else { 0 };
        if self.starved > 0 {
            self.starved -= 1;
            if self.rng.chance(120) {
                return Some(self.relieving(heap));
            }
        }
        let handshake = matches!(phase, SYNC1 | SYNC2);
        if handshake && self.rng.chance(self.plan.checks + hurry) {
            return Some(self.acknowledging(heap));
        }
        let pace = match phase {
            IDLE if !due => self.plan.pace.min(2),
            SYNC1 | SYNC2 => self.plan.pace.min(60),
            _ => self.plan.pace + hurry,
        };
        self.rng.chance(pace).then(|| self.collecting(phase))
    }

    /// A call that may leave records unreached or segments to others.
    fn relieving(&mut self, heap: &UnboundedHeap) -> Call {
        let kind = self.rng.pick(&[Clear, Clear, Clear, Clear, Store, Store, Detach]);
        let mut call = self.of_kind(kind, heap);
        if kind == Clear {
            call.args[1] = self.rng.below(16);
        }
        call
    }

    /// A check, or a leave, which in a long pattern would end it.
    fn acknowledging(&mut self, heap: &UnboundedHeap) -> Call {
        let kind = if self.queue.len() < 200 && self.rng.chance(100) { Leave } else { Check };
        self.of_kind(kind, heap)
    }

    fn collecting(&mut self, phase: u32) -> Call {
        let odd = self.rng.chance(20);
        if (phase == IDLE) != odd {
            return self.call(Start, [0; 4]);
        }
        if self.plan.bursts && self.rng.chance(100) {
            self.run = self.rng.below(40 * self.plan.g.segments.min(20));
        }
        self.call(Step, [0; 4])
    }

    fn arriving(&mut self, heap: &UnboundedHeap) -> Call {
        let kind = match heap.inside {
            0 if heap.outside != 0 && self.rng.chance(512) => Enter,
            0 => Attach,
            _ => self.rng.pick(&[Attach, Spawn]),
        };
        self.of_kind(kind, heap)
    }

    /// A call of the kind, its numbers mostly such that the call is not refused.
    pub fn of_kind(&mut self, kind: Kind, heap: &UnboundedHeap) -> Call {
        let absent = !(heap.inside | heap.outside);
        let mutator = match kind {
            Attach | Spawn => self.mutator(absent),
            Enter => self.mutator(heap.outside),
            Load | Store | Put | Get | Shape => self.mutator(heap.furnished()),
            _ => self.mutator(heap.inside),
        };
        let args = match kind {
            Spawn => {
                let parent = self.mutator(heap.inside);
                [mutator, parent, self.root(), 0]
            }
            Make => {
                let (pointers, values) = self.shape();
                [mutator, self.root(), pointers, values]
            }
            Load => {
                let (root, field) = self.field(heap, mutator, true);
                [mutator, self.root(), root, field]
            }
            Store => {
                let (root, field) = self.field(heap, mutator, true);
                [mutator, root, field, self.filled(heap, mutator)]
            }
            Put | Get => {
                let (root, field) = self.field(heap, mutator, false);
                [mutator, root, field, self.rng.word()]
            }
            Copy | Same => [mutator, self.root(), self.root(), 0],
            Clear => [mutator, self.root(), 0, 0],
            Shape => [mutator, self.filled(heap, mutator), 0, 0],
            _ => [mutator, 0, 0, 0],
        };
        let mut call = self.call(kind, args);
        call.args[kind.arguments()..].fill(0);
        call
    }
}
