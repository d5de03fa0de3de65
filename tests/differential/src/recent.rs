//! The last calls of a list, for the report of a difference.

use crate::calls::{answer_words, Call, Kind};
use crate::layout::Geometry;

const KEPT: usize = 24;

pub struct Recent {
    calls: [(Call, u64); KEPT],
    pushed: usize,
}

impl Recent {
    pub fn new() -> Recent {
        Recent { calls: [(Call::new(Kind::Phase, Geometry { segments: 0, kib: 0 }, [0; 4]), 0); KEPT], pushed: 0 }
    }

    pub fn push(&mut self, call: &Call, answer: u64) {
        self.calls[self.pushed % KEPT] = (*call, answer);
        self.pushed += 1;
    }
}

impl std::fmt::Display for Recent {
    fn fmt(&self, out: &mut std::fmt::Formatter<'_>) -> std::fmt::Result {
        for index in self.pushed.saturating_sub(KEPT)..self.pushed {
            let (call, answer) = &self.calls[index % KEPT];
            writeln!(out, "  {call} -> {}", answer_words(call.kind, *answer))?;
        }
        Ok(())
    }
}
