//! Request No. 7, the measure that its bound rests on: how many steps a cycle can still take from mark on, by the
//! memory alone. Each step that is counted lowers it by one at least, and no other call raises it. It is taken at each
//! examination.

use crate::calls::*;
use crate::layout::{self, Geometry};

/// The mark bits without those of the records on the trace stack.
fn marked(memory: &[u32], g: Geometry) -> Vec<u32> {
    let regions = layout::regions(g);
    let mut marks = memory[regions[6]..regions[7]].to_vec();
    for number in 0..layout::trace_count(memory) {
        let bit = (layout::trace_entry(memory, g, number) as usize - 1) / 2;
        marks[bit / 32] &= !(1 << (bit % 32));
    }
    marks
}

/// The blocks in use, of segments that are not free, that are not marked.
fn unmarked(memory: &[u32], g: Geometry) -> u64 {
    let marks = marked(memory, g);
    let is_marked = |bit: usize| marks[bit / 32] >> (bit % 32) & 1 == 1;
    let of = |segment: u32| {
        let [state, class, ..] = layout::segment(memory, g, segment);
        let blocks = 0..if state == 0 { 0 } else { g.blocks(class) };
        let used = blocks.filter(move |&block| layout::in_use(memory, g, segment, block));
        used.map(move |block| layout::mark_bit(g, segment, class, block))
    };
    (0..g.segments).flat_map(of).filter(|&bit| !is_marked(bit)).count() as u64
}

/// In mark a step for each block in use that is not marked, and the one that moves to sweep; there one for each
/// condemned segment, and done.
fn steps_left(memory: &[u32], g: Geometry) -> Option<u64> {
    let states = layout::each_segment(layout::all_records(memory, g));
    let condemned = states.filter(|state| state[0] == 4).count() as u64;
    match layout::phase(memory) {
        MARK => Some(unmarked(memory, g) + condemned + 2),
        SWEEP => Some(condemned + 1),
        _ => None,
    }
}

/// The measure when it was last taken, and the steps counted since.
#[derive(Default)]
pub struct Measure {
    then: Option<u64>,
    steps: u64,
}

impl Measure {
    fn lowered(&self, left: u64) -> Result<(), String> {
        match self.then.is_none_or(|then| left + self.steps <= then) {
            true => Ok(()),
            false => Err(format!("{left} steps left, after {} since there were {:?}", self.steps, self.then)),
        }
    }

    /// Hears the answer to a step that was not refused.
    pub fn stepped(&mut self, answer: u64) -> Result<(), String> {
        self.steps += u64::from(step_kind(answer) != WAITING);
        if step_kind(answer) == DONE {
            self.lowered(0)?;
            self.then = None;
        }
        Ok(())
    }

    /// Takes the measure, where there is one. Answers whether it was compared with an earlier one.
    pub fn take(&mut self, memory: &[u32], g: Geometry) -> Result<bool, String> {
        let left = steps_left(memory, g);
        if let Some(left) = left {
            self.lowered(left)?;
        }
        let compared = self.then.is_some() && left.is_some();
        *self = Measure { then: left, steps: 0 };
        Ok(compared)
    }
}
