//! Request No. 6: a call that names no size, no count, or those of another heap, over a slice of either size's length or of another, is refused
//! 1, and memory, outputs and scratch stay. Each kind of call, on both implementations, over heaps of both sizes. A look whose output or scratch
//! alone has another length is refused in the same way.

use crate::calls::*;
use crate::interface::{Extra, Interface, Slice};
use crate::layout::{Geometry, SIZES};
use crate::sizes::NO_SIZES;

/// The heaps' counts; where each call is slow, the first two.
const COUNTS: [u32; 5] = [1, 2, 3, 12, 256];

/// Where the lengths of a look's output or scratch stand among those that are lent.
const LOOKS: [(Kind, usize); 3] = [(States, 1), (Examine, 2), (Sheet, 3)];

/// Lengths of the memory, of the output of the look at the states and of the scratch, in words, and of the sheet, in bytes.
type Lengths = [usize; 4];

/// What the calls are lent: the memory begins with a heap of `g`, and is as long as one of the larger size and a word. So are scratch and sheet;
/// the output of the look at the states has as many words as the sheet has bytes.
struct Ground {
    interface: &'static Interface,
    g: Geometry,
    slices: [Vec<u32>; 3],
    sheet: Vec<u8>,
}

impl Ground {
    fn new(interface: &'static Interface, g: Geometry) -> Result<Ground, String> {
        let [memory, _, scratch, sheet] = lengths(interface, Geometry { kib: 32, ..g }).map(|length| length + 1);
        let slices = [memory, sheet, scratch].map(|length| (0..length as u32).map(|word| word.wrapping_mul(0x9e37_79b9)).collect());
        let mut ground = Ground { interface, g, slices, sheet: (0..sheet).map(|byte| byte as u8).collect() };
        for (kind, args) in [(Open, [0; 4]), (Attach, [0; 4]), (Make, [0, 0, 1, 1]), (Start, [0; 4])] {
            let lengths = ground.right();
            match ground.play(&Call::new(kind, g, args), lengths) {
                0 => {}
                answer => return Err(format!("{kind:?} over {g}: {}", answer_words(kind, answer))),
            }
        }
        Ok(ground)
    }

    /// The right lengths.
    fn right(&self) -> Lengths {
        lengths(self.interface, self.g)
    }

    /// The longest that there is to lend.
    fn most(&self) -> Lengths {
        let [memory, output, scratch] = &self.slices;
        [memory.len(), output.len(), scratch.len(), self.sheet.len()]
    }

    fn play(&mut self, call: &Call, lengths: Lengths) -> u64 {
        let [memory, output, scratch] = &mut self.slices;
        let slice = |words: &mut [u32], length: usize| Slice(words[..length].as_mut_ptr(), length);
        let words = if call.kind == States { slice(output, lengths[1]) } else { slice(scratch, lengths[2]) };
        let bytes = Slice(self.sheet[..lengths[3]].as_mut_ptr(), lengths[3]);
        // Each slice lies within its own block.
        unsafe { self.interface.play(call, slice(memory, lengths[0]), Extra { words, bytes }) }
    }

    /// The lengths to lend with a name: of the memory; and of the others, those of the heap, of the other size and of the name.
    fn lent(&self, named: Geometry) -> (Vec<usize>, [Lengths; 3]) {
        let (right, other) = (self.right(), lengths(self.interface, self.g.other_size()));
        let memories = [right[0], other[0], 0, right[0] - 1, right[0] + 1, other[0] - 1, other[0] + 1, right[0] - 2 * self.g.n()];
        let (own, most) = (lengths(self.interface, named), self.most());
        // Those that are right for the name are a heap's, be it this one or another.
        let wrong = memories.into_iter().filter(|&memory| memory <= most[0] && (memory == 0 || memory != own[0]));
        (wrong.collect(), [right, other, own].map(|lengths| std::array::from_fn(|slice| lengths[slice].min(most[slice]))))
    }

    /// A call that must be refused 1.
    fn refused(&mut self, call: &Call, lengths: Lengths) -> Result<(), String> {
        match self.play(call, lengths) {
            answer if answer == u64::from(SIZE) => Ok(()),
            answer => Err(format!("{call} over lengths {lengths:?} of {}: {}, not refused 1", self.g, answer_words(call.kind, answer))),
        }
    }

    /// Calls that must leave all that they are lent as it was. Answers how many.
    fn keeps(&mut self, calls: impl FnOnce(&mut Ground) -> Result<u64, String>) -> Result<u64, String> {
        let before = (self.slices.clone(), self.sheet.clone());
        let many = calls(self)?;
        match self.slices == before.0 && self.sheet == before.1 {
            true => Ok(many),
            false => Err(format!("a call refused 1 over {} changed a word or a byte", self.g)),
        }
    }

    /// Every kind of call with a name, over all these lengths. Answers how many.
    fn refuses(&mut self, named: Geometry) -> Result<u64, String> {
        let (memories, extras) = self.lent(named);
        let mut calls = 0;
        for (kind, &memory) in ALL_KINDS.into_iter().flat_map(|kind| memories.iter().map(move |memory| (kind, memory))) {
            let call = Call::new(kind, named, [0, 0, 1, 0]);
            for [_, output, scratch, sheet] in extras.into_iter().take(if call.has_extra() { 3 } else { 1 }) {
                self.refused(&call, [memory, output, scratch, sheet])?;
                calls += 1;
            }
        }
        Ok(calls)
    }

    /// Every look at the heap itself that has an output or a scratch, with none of it, one less, one more, the lengths of the other looks, and
    /// a sheet's without empty lines, with one behind the last line, and of one line less. Answers how many.
    fn refuses_extras(&mut self) -> Result<u64, String> {
        let (right, most, n) = (self.right(), self.most(), self.g.n());
        let mut calls = 0;
        for (kind, at) in LOOKS {
            let others = [0, right[at] - 1, right[at] + 1, right[1], right[2], right[3], 52 * n, 52 * n + n / 60, right[3] - 52];
            for length in others.into_iter().filter(|&length| length != right[at] && length <= most[at]) {
                let mut lengths = right;
                lengths[at] = length;
                self.refused(&Call::new(kind, self.g, [0; 4]), lengths)?;
                calls += 1;
            }
        }
        Ok(calls)
    }
}

fn lengths(interface: &Interface, g: Geometry) -> Lengths {
    [interface.length(g), interface.states_length(g), interface.scratch_length(g), interface.sheet_length(g)]
}

/// All names over all heaps, on the implementations. Answers how many calls were refused.
pub fn all_refused(interfaces: [&'static Interface; 2], slow: bool) -> Result<u64, String> {
    let counts = &COUNTS[..if slow { 2 } else { COUNTS.len() }];
    let heaps = counts.iter().flat_map(|&segments| SIZES.map(|kib| Geometry { segments, kib }));
    let mut calls = 0;
    for (g, interface) in heaps.flat_map(|g| interfaces.map(|interface| (g, interface))) {
        let mut ground = Ground::new(interface, g)?;
        calls += ground.keeps(Ground::refuses_extras)?;
        let counts = [g.segments, 0, g.segments - 1, g.segments + 1, 2 * g.segments, 257, u32::MAX];
        for segments in counts {
            for kib in NO_SIZES.into_iter().chain(SIZES) {
                let named = Geometry { segments, kib };
                calls += ground.keeps(|ground| ground.refuses(named))?;
            }
        }
    }
    Ok(calls)
}
