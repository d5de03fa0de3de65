//! Calls with a count, a size or a length that is not the right one: refused 1, whatever the call.

use crate::calls::*;
use crate::choose::Chooser;
use crate::layout::Geometry;
use crate::rng::Rng;
use crate::unbounded::UnboundedHeap;

/// Sizes that are none, by their neighbours, as bytes, and at the bounds of the 32 bits.
pub const NO_SIZES: [u32; 14] = [0, 1, 8, 15, 17, 24, 31, 33, 48, 64, 256, 16384, 32768, u32::MAX];

/// A count that is none, as that; and one that is another's.
fn no_count(rng: &mut Rng, g: Geometry) -> Geometry {
    Geometry { segments: rng.pick(&[0, 257, 512, 65537, 1 << 31, u32::MAX, g.segments + 256]), ..g }
}

fn other_count(rng: &mut Rng, g: Geometry) -> Geometry {
    let others = [1, 2, 255, 256, g.segments / 2, g.segments.wrapping_sub(1), g.segments + 1, 2 * g.segments];
    let segments = rng.pick(&others);
    Geometry { segments: if segments == g.segments { 3 + g.segments % 2 } else { segments }, ..g }
}

/// A count or a size that is not the heap's: another one, or none, or both.
pub fn other_name(rng: &mut Rng, g: Geometry) -> Geometry {
    let no_size = |rng: &mut Rng, g: Geometry| Geometry { kib: rng.pick(&NO_SIZES), ..g };
    match rng.below(8) {
        0 => no_count(rng, g),
        1 => other_count(rng, g),
        2 | 3 => g.other_size(),
        4 | 5 => no_size(rng, g),
        6 => other_count(rng, g).other_size(),
        _ => {
            let counted = if rng.chance(512) { no_count(rng, g) } else { other_count(rng, g) };
            no_size(rng, counted)
        }
    }
}

/// A length that is not the right one: of another count, of the other size, longer where `longer` allows it, or shorter by up to so many
/// words.
pub fn wrong_length(rng: &mut Rng, g: Geometry, longer: bool, shorter: u32) -> Length {
    match rng.below(6) {
        0 => Length::Zero,
        1 => Length::Of(Geometry { segments: rng.below(g.segments), ..g }),
        2 if longer => Length::Longer(rng.between(1, 16)),
        3 => Length::Of(g.other_size()),
        4 => Length::Shorter(rng.between(1, shorter)),
        _ => Length::Shorter(1),
    }
}

impl Chooser {
    /// A count, a size or a length that is not the right one, on any call.
    pub fn wrong(&mut self, heap: &UnboundedHeap) -> Call {
        let all = [Open, Attach, Spawn, Detach, Make, Load, Store, Put, Copy, Clear, Check];
        let more = [Leave, Enter, Start, Step, Get, Same, Shape, Phase, States, Sheet, Examine];
        let kind = if self.rng.chance(512) { self.rng.pick(&all) } else { self.rng.pick(&more) };
        let mut call = self.of_kind(kind, heap);
        let (g, longer) = (self.plan.g, self.plan.longer);
        match self.rng.below(6) {
            0..=2 => call.named = other_name(&mut self.rng, g),
            3 if call.kind == States && self.rng.chance(512) => call.extra = Length::Former,
            3 if call.has_extra() => call.extra = wrong_length(&mut self.rng, g, longer, 5000),
            4 if self.rng.chance(512) => call.length = Length::Former,
            4 => {
                call.named = other_name(&mut self.rng, g);
                call.length = wrong_length(&mut self.rng, g, longer, 5000);
            }
            _ => call.length = wrong_length(&mut self.rng, g, longer, 5000),
        }
        call
    }
}
