//! The looks at the phase and at the segments' states.

use core::ops::Deref;

use crate::answers::{refuse, Answer, Refusal, SWEEP};
use crate::layout::{states_length, Heap, CLASS, HANDED_OUT, KEPT, PLACE, STATE, STATE_WORDS, TIE};
use crate::segments::{CONDEMNED, FREE, HELD};

/// The phase.
#[inline]
pub fn phase(segments: u32, kib: u32, mem: &[u32]) -> Answer<u32> {
    match Heap::over(segments, kib, mem)?.phase()? {
        phase if phase <= SWEEP => Ok(phase),
        _ => refuse(Refusal::TORN),
    }
}

impl<M: Deref<Target = [u32]>> Heap<M> {
    /// A segment's state, class, place and mutator, 0 for what its state does not have, and its two counts.
    fn state(&self, segment: usize) -> Answer<[u32; STATE_WORDS]> {
        let head = self.head(self.descriptor(segment))?;
        let [class, place, mutator] = match head[STATE] {
            FREE => [0; 3],
            HELD => [head[CLASS], head[PLACE], head[TIE]],
            state if state <= CONDEMNED => [head[CLASS], head[PLACE], 0],
            _ => return refuse(Refusal::TORN),
        };
        Ok([head[STATE], class, place, mutator, head[KEPT], head[HANDED_OUT]])
    }
}

/// Six words for each segment into the output, which a refusal leaves as it was.
pub fn states(segments: u32, kib: u32, mem: &[u32], output: &mut [u32]) -> Answer<()> {
    let heap = Heap::over(segments, kib, mem)?;
    if output.len() != states_length(segments, kib) {
        return refuse(Refusal::SIZE);
    }
    for segment in 0..heap.segments {
        heap.state(segment)?;
    }
    for (segment, words) in output.chunks_exact_mut(STATE_WORDS).enumerate() {
        words.copy_from_slice(&heap.state(segment)?);
    }
    Ok(())
}
