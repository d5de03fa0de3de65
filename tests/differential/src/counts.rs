//! Wrong counts in memory that is in order otherwise, and what each call does with them: a make adds 1 to the count of the segment from which
//! it takes a block, a sweep goes by both and sets both, an opening leaves none, and no other call changes one. A make is refused 13 exactly
//! where its count is the largest word, a sweep exactly where the two are more than the segment's blocks, and no other call is but a sheet
//! (`sheet.rs`).

use crate::calls::*;
use crate::layout::{self, Geometry};
use crate::unbounded::MOST_FIELDS;

/// The memory before a call and after it.
pub struct Around<'a> {
    pub g: Geometry,
    pub before: &'a [u32],
    pub after: &'a [u32],
}

impl Around<'_> {
    pub fn goes_by_counts(&self, call: &Call, answer: u64) -> bool {
        match (call.kind, refusal(answer)) {
            (Open, 0) => (0..self.g.segments).all(|segment| self.counts_after(segment) == [0, 0]),
            (Make, 0) => self.taken(call).is_some_and(|segment| self.makes(call, segment)),
            (Make, TORN) => self.taken(call).is_some_and(|segment| self.counts(segment)[1] == u32::MAX),
            (Step, 0) if step_kind(answer) == SWEPT => self.sweeps(step_number(answer), step_freed(answer)),
            (Step, TORN) => self.lowest().is_some_and(|segment| self.in_use(segment).is_none()),
            (kind, TORN) if kind != Sheet => false,
            _ => self.others_stay(None),
        }
    }

    fn counts(&self, segment: u32) -> [u32; 2] {
        layout::counts_of(&layout::segment(self.before, self.g, segment))
    }

    fn counts_after(&self, segment: u32) -> [u32; 2] {
        layout::counts_of(&layout::segment(self.after, self.g, segment))
    }

    fn others_stay(&self, but: Option<u32>) -> bool {
        (0..self.g.segments).filter(|&segment| Some(segment) != but).all(|segment| self.counts(segment) == self.counts_after(segment))
    }

    /// The segment from which a make takes its block.
    fn taken(&self, call: &Call) -> Option<u32> {
        let [mutator, _, pointers, values] = call.args;
        let fields = pointers.saturating_add(values);
        if mutator > 31 || fields > MOST_FIELDS {
            return None;
        }
        layout::taken(self.before, self.g, mutator, layout::class_of(fields))
    }

    fn makes(&self, call: &Call, segment: u32) -> bool {
        let root = layout::root(self.after, call.args[0], call.args[1]);
        let [kept, handed_out] = self.counts(segment);
        let named = (root as usize).wrapping_sub(1) / self.g.segment_words() == segment as usize;
        let counted = handed_out.checked_add(1).is_some_and(|more| self.counts_after(segment) == [kept, more]);
        named && counted && self.others_stay(Some(segment))
    }

    /// The lowest condemned segment.
    fn lowest(&self) -> Option<u32> {
        (0..self.g.segments).find(|&segment| layout::segment(self.before, self.g, segment)[0] == 4)
    }

    /// The blocks of a segment in use by its counts, where it has as many.
    fn in_use(&self, segment: u32) -> Option<u32> {
        let [kept, handed_out] = self.counts(segment);
        let blocks = self.g.blocks(layout::segment(self.before, self.g, segment)[1]);
        kept.checked_add(handed_out).filter(|&in_use| in_use <= blocks)
    }

    fn sweeps(&self, segment: u32, freed: u32) -> bool {
        let blocks = self.g.blocks(layout::segment(self.before, self.g, segment)[1]);
        let marked = |block: &u32| layout::marked_or_queued(self.before, self.g, segment, *block);
        let marked = (0..blocks).filter(marked).count() as u32;
        let right = self.in_use(segment).is_some_and(|in_use| freed == in_use.saturating_sub(marked));
        right && self.lowest() == Some(segment) && self.counts_after(segment) == [marked, 0] && self.others_stay(Some(segment))
    }
}
