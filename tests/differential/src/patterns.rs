//! Patterns of several calls: chains that grow and are walked, rows of blocks with a cycle after them, a record moved behind the collector's
//! back, and a mutator that holds a segment of each class.

use crate::calls::*;
use crate::choose::Chooser;
use crate::layout;
use crate::unbounded::{UnboundedHeap, MOST_FIELDS};

impl Chooser {
    /// The first call of a pattern; the others are queued.
    pub fn pattern(&mut self, heap: &UnboundedHeap) -> Option<Call> {
        if self.plan.g.n() >= layout::CLASSES && self.rng.chance(40) {
            self.each_class(heap);
            return self.queue.pop_front();
        }
        let m = self.rng.bit(heap.inside)?;
        match self.rng.below(8) {
            4..=7 if self.plan.profile.rows => self.row(m),
            0 | 1 => self.hide(heap, m),
            2 | 3 => self.walk(heap, m),
            _ => self.push(m),
        }
        self.queue.pop_front()
    }

    /// A new record whose last pointer is the head of a chain becomes the chain's head.
    fn push(&mut self, m: u32) {
        let (pointers, values) = self.shape();
        if pointers == 0 || pointers + values > MOST_FIELDS {
            return;
        }
        let (new, head) = (self.rng.below(8), 8 + self.rng.below(8));
        let calls = [(Make, [m, new, pointers, values]), (Store, [m, new, pointers - 1, head]), (Copy, [m, head, new, 0])];
        self.queue.extend(calls.map(|(kind, args)| Call::new(kind, self.plan.g, args)));
    }

    /// Many records that live, one block after the other, then some that die: bitmaps with long runs of ones. In a bitmap of three levels some
    /// runs are long enough for whole words of level 1, and as many die as fill a segment; before such a row the mutator goes and comes again,
    /// and a cycle is before and after it.
    fn row(&mut self, m: u32) {
        let class = self.rng.pick(&self.plan.palette);
        let (blocks, pointers) = (self.plan.g.blocks(class), (1 << class) / 4 - 1);
        let whole = blocks >= 2048 && self.rng.chance(self.plan.profile.whole);
        let live = match self.rng.below(4) {
            _ if whole => self.rng.between(blocks / 4, blocks - 1),
            0 => self.rng.between(1, 2 * blocks),
            1 => self.rng.between(1, blocks / 4 + 1),
            _ => self.rng.between(1, 100),
        };
        if whole {
            self.let_go(m);
            self.cycle(m, blocks / 4, &[], &[]);
        }
        let (mut new, mut head) = (8 + self.rng.below(8), 8 + self.rng.below(8));
        for _ in 0..live.min(3 * self.plan.g.most_blocks() / 2) {
            let calls = [(Make, [m, new, pointers, 0]), (Store, [m, new, 0, head])];
            self.queue.extend(calls.map(|(kind, args)| Call::new(kind, self.plan.g, args)));
            (new, head) = (head, new);
        }
        let dead = match self.rng.chance(512) {
            _ if whole => blocks - live,
            true => self.rng.below(blocks / 8 + 2),
            false => 0,
        };
        let make = Call::new(Make, self.plan.g, [m, new, pointers, 0]);
        self.queue.extend((0..dead).map(|_| make));
        if whole {
            let entering = if self.rng.chance(512) { self.entering(m, head, live) } else { Vec::new() };
            self.cycle(m, 2 * live, &entering, &[make; 4]);
        }
    }

    /// The mutator is detached, after a handshake where one runs, and attached again.
    fn let_go(&mut self, m: u32) {
        let calls = [(Check, m), (Step, 0), (Check, m), (Step, 0), (Detach, m), (Attach, m)];
        self.queue.extend(calls.map(|(kind, m)| Call::new(kind, self.plan.g, [m, 0, 0, 0])));
    }

    /// A cycle that so many steps trace, where no other mutator is waited for. Calls come in its first handshake, with none between them, and
    /// others after it.
    fn cycle(&mut self, m: u32, traces: u32, meanwhile: &[Call], after: &[Call]) {
        let [start, step] = [Start, Step].map(|kind| Call::new(kind, self.plan.g, [0; 4]));
        let check = Call::new(Check, self.plan.g, [m, 0, 0, 0]);
        self.queue.extend([start, check].iter().chain(meanwhile));
        let before = self.queue.len();
        self.queue.extend([step, check, step]);
        self.queue.extend((0..traces + 2 * self.plan.g.segments).map(|_| step));
        self.queue.extend(after);
        let rest = self.queue.len() - before;
        self.calm = rest + 1..rest + meanwhile.len() + 1;
    }

    /// A walk along a row of so many records, each pointer stored where it was: each record but the first is entered on the trace stack.
    fn entering(&self, m: u32, head: u32, records: u32) -> Vec<Call> {
        let first = [(Copy, [m, 0, head, 0])];
        let walk = (1..records).flat_map(|number| {
            let (from, to) = (1 - number % 2, number % 2);
            [(Load, [m, to, from, 0]), (Store, [m, from, 0, to])]
        });
        first.into_iter().chain(walk).map(|(kind, args)| Call::new(kind, self.plan.g, args)).collect()
    }

    /// A mutator that comes in, a record of each class by it, in any order, and mostly its detach: it hands back a segment of each class in
    /// which a block is left.
    fn each_class(&mut self, heap: &UnboundedHeap) {
        let Some(m) = self.rng.bit(!(heap.inside | heap.outside)) else { return };
        let mut classes: Vec<u32> = (layout::LOWEST..=layout::HIGHEST).collect();
        for place in 1..classes.len() {
            classes.swap(place, self.rng.below(place as u32 + 1) as usize);
        }
        let mut calls = vec![(Attach, [m, 0, 0, 0])];
        calls.extend(classes.into_iter().map(|class| {
            let fields = (1 << class) / 4 - 1;
            let pointers = self.rng.between(0, fields);
            (Make, [m, class, pointers, fields - pointers])
        }));
        if self.rng.chance(900) {
            calls.push((Detach, [m, 0, 0, 0]));
        }
        self.queue.extend(calls.into_iter().map(|(kind, args)| Call::new(kind, self.plan.g, args)));
    }

    /// Some steps along a chain.
    fn walk(&mut self, heap: &UnboundedHeap, m: u32) {
        let root = self.rng.below(16);
        let Some(record) = heap.record(m, root) else { return };
        if record.pointers == 0 {
            return;
        }
        let field = record.pointers - 1;
        let to = self.rng.below(8);
        let first = Call::new(Load, self.plan.g, [m, to, root, field]);
        self.queue.push_back(first);
        for _ in 0..self.rng.below(6) {
            self.queue.push_back(Call::new(Load, self.plan.g, [m, to, to, field]));
        }
    }

    /// The only way to a record is cut off behind one pointer and laid behind another: what a barrier must see.
    fn hide(&mut self, heap: &UnboundedHeap, m: u32) {
        let (from, to) = (self.rng.below(16), self.rng.below(16));
        let (Some(first), Some(second)) = (heap.record(m, from), heap.record(m, to)) else {
            return;
        };
        if first.pointers == 0 || second.pointers == 0 {
            return;
        }
        let out = self.rng.below(first.pointers);
        let into = self.rng.below(second.pointers);
        let (held, nil) = (self.rng.below(16), self.rng.below(16));
        let calls = [
            (Load, [m, held, from, out]),
            (Clear, [m, nil, 0, 0]),
            (Store, [m, from, out, nil]),
            (Store, [m, to, into, held]),
            (Clear, [m, held, 0, 0]),
        ];
        self.queue.extend(calls.map(|(kind, args)| Call::new(kind, self.plan.g, args)));
    }
}
