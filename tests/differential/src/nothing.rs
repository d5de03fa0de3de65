//! Request No. 1, as No. 5 has it: a cycle that begins with no full and no part segment is one over nothing. No segment is condemned or becomes free while it lasts, no
//! step answers Swept, the first one in sweep answers Done, and then each block that was in use when it began still is.

use crate::calls::*;
use crate::coverage::{Coverage, Situation::*};
use crate::layout::{self, Geometry};

/// Whether such a cycle runs, and with which blocks in use it began: segment and block of each.
#[derive(Default)]
pub struct OverNothing {
    used: Option<Vec<(u32, u32)>>,
}

fn blocks_in_use(memory: &[u32], g: Geometry) -> Vec<(u32, u32)> {
    let blocks = |segment| match layout::segment(memory, g, segment) {
        [0, ..] => 0,
        [_, class, ..] => g.blocks(class),
    };
    let all = (0..g.segments).flat_map(|segment| (0..blocks(segment)).map(move |block| (segment, block)));
    all.filter(|&(segment, block)| layout::in_use(memory, g, segment, block)).collect()
}

impl OverNothing {
    /// A cycle has begun that condemned so many segments.
    pub fn begin(memory: &[u32], g: Geometry, condemned: usize) -> OverNothing {
        OverNothing { used: (condemned == 0).then(|| blocks_in_use(memory, g)) }
    }

    pub fn runs(&self) -> bool {
        self.used.is_some()
    }

    /// Counts what a call met while such a cycle runs.
    pub fn note(&self, call: &Call, answer: u64, coverage: &mut Coverage) {
        match (call.kind, refusal(answer), step_kind(answer)) {
            _ if !self.runs() => {}
            (Make, NO_ROOM, _) => coverage.met(NoRoomOverNothing),
            (Step, 0, WAITING) => coverage.met(WaitingOverNothing),
            (Step, 0, TRACED) => coverage.met(TracedOverNothing),
            (Step, 0, DONE) => coverage.met(DoneOverNothing),
            _ => {}
        }
    }

    /// Two looks at the states, one after the other.
    pub fn looked(&self, before: &[u32], now: &[u32]) -> Result<(), String> {
        if !self.runs() {
            return Ok(());
        }
        let wrong = |(before, now): (&[u32], &[u32])| now[0] == 4 || before[0] != 0 && now[0] == 0;
        match layout::each_segment(before).zip(layout::each_segment(now)).position(wrong) {
            Some(segment) => Err(format!("segment {segment} was condemned or became free in a cycle over nothing")),
            None => Ok(()),
        }
    }

    /// A step of this kind, in the phase that was.
    pub fn stepped(&self, phase: u32, kind: u32) -> Result<(), String> {
        let right = kind != SWEPT && (phase != SWEEP || kind == DONE);
        match right || !self.runs() {
            true => Ok(()),
            false => Err(format!("step: {} in phase {phase} of a cycle over nothing", STEP_KINDS[kind as usize])),
        }
    }

    /// The cycle that runs is done.
    pub fn ended(&mut self, memory: &[u32], g: Geometry) -> Result<(), String> {
        let used = self.used.take().unwrap_or_default();
        match used.iter().find(|&&(segment, block)| !layout::in_use(memory, g, segment, block)) {
            Some((segment, block)) => Err(format!("block {block} of segment {segment} became free in a cycle over nothing")),
            None => Ok(()),
        }
    }
}
