//! Request No. 5: a start condemns every full and every part segment, each with its class, place and counts, and leaves no segment on a part
//! stack. What it condemned is swept once in that cycle, and nothing else is: no held segment, and none that becomes full or part later.

use crate::calls::*;
use crate::coverage::{Coverage, Situation::*};
use crate::layout::{self, Geometry};

/// Of the cycle that runs, by segment unless said otherwise; and of which heap.
pub struct Parts {
    g: Geometry,
    /// Condemned, and still to be swept.
    due: Vec<bool>,
    /// Part when the cycle began.
    part: Vec<bool>,
    /// Held when it began, and by whom.
    held: Vec<Option<u32>>,
    /// Became part by a detach in it.
    given: Vec<bool>,
    /// By class: a make of it was refused 10 while a segment was condemned that had been part.
    refused: [bool; layout::CLASSES],
    /// The stacks' words just before a start.
    stacks: Vec<u32>,
}

fn stacks(memory: &[u32], g: Geometry) -> &[u32] {
    let regions = layout::regions(g);
    &memory[regions[4]..regions[5]]
}

/// Whether a word of the stacks is the count of a part stack.
fn is_part_count(g: Geometry, at: usize) -> bool {
    let stride = 1 + g.n();
    at >= stride && at.is_multiple_of(stride)
}

/// What a start makes of a segment's record.
fn condemned(record: &[u32]) -> Vec<u32> {
    let mut after = record.to_vec();
    if matches!(record[0], 1 | 3) {
        after[0] = 4;
    }
    after
}

impl Parts {
    pub fn new(g: Geometry) -> Parts {
        let none = vec![false; g.n()];
        let held = vec![None; g.n()];
        Parts { g, due: none.clone(), part: none.clone(), held, given: none, refused: [false; layout::CLASSES], stacks: Vec::new() }
    }

    /// The states are found, in a cycle or not.
    pub fn adopt(&mut self, states: &[u32]) {
        for (due, state) in self.due.iter_mut().zip(layout::each_segment(states)) {
            *due = state[0] == 4;
        }
    }

    /// A start is about to come.
    pub fn remember(&mut self, memory: &[u32]) {
        self.stacks.clear();
        self.stacks.extend_from_slice(stacks(memory, self.g));
    }

    /// A cycle has begun; `before` is the look just before it.
    pub fn start(&mut self, before: &[u32]) {
        self.refused = [false; layout::CLASSES];
        for (segment, state) in layout::each_segment(before).enumerate() {
            self.due[segment] = matches!(state[0], 1 | 3);
            self.part[segment] = state[0] == 1;
            self.held[segment] = (state[0] == 2).then_some(state[3]);
            self.given[segment] = false;
        }
    }

    /// The look just after a start, which changes no tag but those of full and part segments, and of the stacks the part stacks' counts alone.
    pub fn started(&self, memory: &[u32], before: &[u32], after: &[u32]) -> Result<(), String> {
        let mut looks = layout::each_segment(before).zip(layout::each_segment(after)).enumerate();
        if let Some((segment, (was, is))) = looks.find(|(_, (was, is))| condemned(was) != *is) {
            return Err(format!("a start: segment {segment} was {was:?} and is {is:?}"));
        }
        let words = self.stacks.iter().zip(stacks(memory, self.g)).enumerate();
        let mut wrong = words.filter(|&(at, (was, is))| *is != if is_part_count(self.g, at) { 0 } else { *was });
        match wrong.next() {
            Some((at, (was, is))) => Err(format!("a start: word {at} of the stacks was {was} and is {is}")),
            None => Ok(()),
        }
    }

    /// Counts what a start met.
    pub fn note_start(&self, coverage: &mut Coverage) {
        let parts = self.part.iter().filter(|&&part| part).count();
        let all = self.due.iter().filter(|&&due| due).count();
        let held = self.held.iter().any(Option::is_some);
        let met = [(parts > 0, PartCondemned), (parts > 0 && parts == all, OnlyPartsCondemned), (parts > 0 && parts < all, FullAndPartCondemned)];
        for (_, situation) in met.into_iter().chain([(all == 0 && held, OverNothingWithHeld)]).filter(|(met, _)| *met) {
            coverage.met(situation);
        }
    }

    /// A make of the class was refused 10.
    pub fn no_room(&mut self, states: &[u32], class: u32, phase: u32, coverage: &mut Coverage) {
        let condemned = |(segment, state): &(usize, &[u32])| state[0] == 4 && self.part[*segment];
        let classes: Vec<u32> = layout::each_segment(states).enumerate().filter(condemned).map(|(_, state)| state[1]).collect();
        if classes.is_empty() {
            return;
        }
        self.refused[(class - layout::LOWEST) as usize] = true;
        coverage.met(if classes.contains(&class) { NoRoomPartOfClassCondemned } else { NoRoomPartOfOthersCondemned });
        coverage.met(match phase {
            SYNC1 => NoRoomPartCondemnedSync1,
            SYNC2 => NoRoomPartCondemnedSync2,
            MARK => NoRoomPartCondemnedMark,
            _ => NoRoomPartCondemnedSweep,
        });
    }

    /// A make of the class took a block of the segment, where `other_class` says that it was of another class before.
    pub fn made(&self, segment: u32, class: u32, other_class: bool, coverage: &mut Coverage) {
        let segment = segment as usize;
        if self.part[segment] && !self.due[segment] && self.refused[(class - layout::LOWEST) as usize] {
            coverage.met(if other_class { RoomOfAnotherClassAfterSweep } else { RoomAfterSweep });
        }
    }

    /// A detach in this phase made the segment part.
    pub fn given_back(&mut self, segment: usize, phase: u32, coverage: &mut Coverage) {
        if matches!(phase, MARK | SWEEP) {
            self.given[segment] = true;
            coverage.met(if phase == MARK { PartMadeInMark } else { PartMadeInSweep });
        }
    }

    /// The segment is swept; `became` is its state now.
    pub fn swept(&mut self, segment: u32, became: u32, coverage: &mut Coverage) -> Result<(), String> {
        let segment = segment as usize;
        if !std::mem::take(&mut self.due[segment]) {
            return Err(format!("segment {segment} is swept, which the start did not condemn, or a second time"));
        }
        if self.part[segment] {
            match became {
                0 => coverage.met(PartSweptToFree),
                1 => coverage.met(PartSweptToPart),
                _ => return Err(format!("segment {segment} was part when the cycle began, and is swept to full")),
            }
        }
        Ok(())
    }

    /// The cycle is done.
    pub fn done(&mut self, states: &[u32], coverage: &mut Coverage) -> Result<(), String> {
        if let Some(segment) = self.due.iter().position(|&due| due) {
            return Err(format!("segment {segment} was condemned, and is not swept when the cycle is done"));
        }
        for (segment, state) in layout::each_segment(states).enumerate() {
            if self.held[segment].is_some_and(|mutator| state[0] == 2 && state[3] == mutator) {
                coverage.met(HeldThroughCycle);
            }
            if self.given[segment] && state[0] == 1 {
                coverage.met(PartMadeInCycleStays);
            }
        }
        Ok(())
    }
}
