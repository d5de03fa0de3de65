//! The C interface over slices and plain numbers, safe and otherwise as it is: every call, and every refusal, of include/borvukhai.h.
//!
//! The typed layer ([`Heap`](crate::Heap), [`Mutator`](crate::Mutator)) stands on these functions. They are for programs that keep
//! counts and numbers of their own, and for tests. `segments` and `kib`, the size of a segment, may be any numbers and the slices of any
//! length: what does not fit is refused [`Size`](crate::Refusal::Size), and so on by the table of [`Refusal`](crate::Refusal).
//!
//! A slice of Rust is what the C interface asks of a lent slice: its pointer is aligned and not null, also where it has no words, and
//! borrows of one call do not overlap. Nothing is kept between calls but the words of `memory`.

use crate::answer::{plain, result, truth};
use crate::collector::Step;
use crate::looks::Phase;
use crate::numbers::Shape;
use crate::refusal::Result;
use crate::sys;

/// Words of the memory for a count of segments of a size; 0 for a count that is not 1 to 256, and for a size that is neither 16 nor 32.
#[inline]
pub fn length(segments: u32, kib: u32) -> usize {
    sys::borvukhai_length(segments, kib)
}

/// Words of the output of [`states`]; 0 likewise.
#[inline]
pub fn states_length(segments: u32, kib: u32) -> usize {
    sys::borvukhai_states_length(segments, kib)
}

/// Words of the scratch of [`examine`]; 0 likewise.
#[inline]
pub fn scratch_length(segments: u32, kib: u32) -> usize {
    sys::borvukhai_scratch_length(segments, kib)
}

/// Bytes of the output of [`sheet`]; 0 likewise.
#[inline]
pub fn sheet_length(segments: u32, kib: u32) -> usize {
    sys::borvukhai_sheet_length(segments, kib)
}

/// The number of the layout that the library has: [`LAYOUT`](crate::LAYOUT) where it is this crate's.
#[inline]
pub fn layout() -> u32 {
    sys::borvukhai_layout()
}

/// An empty heap in memory of any content. Refused Size only.
#[inline]
pub fn open(segments: u32, kib: u32, memory: &mut [u32]) -> Result<()> {
    // SAFETY: a slice, borrowed for this call alone.
    plain(unsafe { sys::borvukhai_open(segments, kib, memory.as_mut_ptr(), memory.len()) })
}

/// A mutator comes in, inside, its roots nil. Refused Size, Script, Taken, NotNow, Torn.
#[inline]
pub fn attach(segments: u32, kib: u32, memory: &mut [u32], mutator: u32) -> Result<()> {
    // SAFETY: a slice, borrowed for this call alone.
    plain(unsafe { sys::borvukhai_attach(segments, kib, memory.as_mut_ptr(), memory.len(), mutator) })
}

/// The same, but root 0 is a copy of `root` of `parent`. Refused Size, Script, Taken, Absent, Side, Slot, NotNow, Torn.
#[inline]
pub fn spawn(segments: u32, kib: u32, memory: &mut [u32], mutator: u32, parent: u32, root: u32) -> Result<()> {
    // SAFETY: a slice, borrowed for this call alone.
    plain(unsafe { sys::borvukhai_spawn(segments, kib, memory.as_mut_ptr(), memory.len(), mutator, parent, root) })
}

/// A mutator goes for good. Refused Size, Script, Absent, Side, NotNow, Torn.
#[inline]
pub fn detach(segments: u32, kib: u32, memory: &mut [u32], mutator: u32) -> Result<()> {
    // SAFETY: a slice, borrowed for this call alone.
    plain(unsafe { sys::borvukhai_detach(segments, kib, memory.as_mut_ptr(), memory.len(), mutator) })
}

/// A new record, its pointers nil and its values 0, into root `to`. Refused Size, Script, Absent, Side, Slot, TooBig, NoRoom, Torn.
#[inline]
pub fn make(segments: u32, kib: u32, memory: &mut [u32], mutator: u32, to: u32, pointers: u32, values: u32) -> Result<()> {
    // SAFETY: a slice, borrowed for this call alone.
    plain(unsafe { sys::borvukhai_make(segments, kib, memory.as_mut_ptr(), memory.len(), mutator, to, pointers, values) })
}

/// Pointer `field` of the record in root `root` into root `to`. Refused Size, Script, Absent, Side, Slot, Dark, Field, Torn.
#[inline]
pub fn load(segments: u32, kib: u32, memory: &mut [u32], mutator: u32, to: u32, root: u32, field: u32) -> Result<()> {
    // SAFETY: a slice, borrowed for this call alone.
    plain(unsafe { sys::borvukhai_load(segments, kib, memory.as_mut_ptr(), memory.len(), mutator, to, root, field) })
}

/// Root `from` into pointer `field` of the record in root `root`. Refused Size, Script, Absent, Side, Slot, Dark, Field, Torn.
#[inline]
pub fn store(segments: u32, kib: u32, memory: &mut [u32], mutator: u32, root: u32, field: u32, from: u32) -> Result<()> {
    // SAFETY: a slice, borrowed for this call alone.
    plain(unsafe { sys::borvukhai_store(segments, kib, memory.as_mut_ptr(), memory.len(), mutator, root, field, from) })
}

/// `value` into value `field` of the record in root `root`. Refused Size, Script, Absent, Side, Slot, Dark, Field, Torn.
#[inline]
pub fn put(segments: u32, kib: u32, memory: &mut [u32], mutator: u32, root: u32, field: u32, value: u32) -> Result<()> {
    // SAFETY: a slice, borrowed for this call alone.
    plain(unsafe { sys::borvukhai_put(segments, kib, memory.as_mut_ptr(), memory.len(), mutator, root, field, value) })
}

/// Root `from` into root `to`. Refused Size, Script, Absent, Side, Slot, Torn.
#[inline]
pub fn copy(segments: u32, kib: u32, memory: &mut [u32], mutator: u32, to: u32, from: u32) -> Result<()> {
    // SAFETY: a slice, borrowed for this call alone.
    plain(unsafe { sys::borvukhai_copy(segments, kib, memory.as_mut_ptr(), memory.len(), mutator, to, from) })
}

/// Nil into root `to`. Refused Size, Script, Absent, Side, Slot, Torn.
#[inline]
pub fn clear(segments: u32, kib: u32, memory: &mut [u32], mutator: u32, to: u32) -> Result<()> {
    // SAFETY: a slice, borrowed for this call alone.
    plain(unsafe { sys::borvukhai_clear(segments, kib, memory.as_mut_ptr(), memory.len(), mutator, to) })
}

/// Value `field` of the record in root `root`. Refused Size, Script, Absent, Side, Slot, Dark, Field, Torn.
#[inline]
pub fn get(segments: u32, kib: u32, memory: &[u32], mutator: u32, root: u32, field: u32) -> Result<u32> {
    // SAFETY: a slice, borrowed for this call, which only reads it.
    result(unsafe { sys::borvukhai_get(segments, kib, memory.as_ptr(), memory.len(), mutator, root, field) })
}

/// Whether two roots are the same record or both nil. Refused Size, Script, Absent, Side, Slot, Torn.
#[inline]
pub fn same(segments: u32, kib: u32, memory: &[u32], mutator: u32, root: u32, other: u32) -> Result<bool> {
    // SAFETY: a slice, borrowed for this call, which only reads it.
    truth(unsafe { sys::borvukhai_same(segments, kib, memory.as_ptr(), memory.len(), mutator, root, other) })
}

/// The counts of the record in root `root`. Refused Size, Script, Absent, Side, Slot, Dark, Torn.
#[inline]
pub fn shape(segments: u32, kib: u32, memory: &[u32], mutator: u32, root: u32) -> Result<Shape> {
    // SAFETY: a slice, borrowed for this call, which only reads it.
    result(unsafe { sys::borvukhai_shape(segments, kib, memory.as_ptr(), memory.len(), mutator, root) }).map(Shape::unpack)
}

/// The acknowledgement of a handshake, where one is owed. Refused Size, Script, Absent, Side, Torn.
#[inline]
pub fn check(segments: u32, kib: u32, memory: &mut [u32], mutator: u32) -> Result<()> {
    // SAFETY: a slice, borrowed for this call alone.
    plain(unsafe { sys::borvukhai_check(segments, kib, memory.as_mut_ptr(), memory.len(), mutator) })
}

/// A check, then outside. Refused Size, Script, Absent, Side, Torn.
#[inline]
pub fn leave(segments: u32, kib: u32, memory: &mut [u32], mutator: u32) -> Result<()> {
    // SAFETY: a slice, borrowed for this call alone.
    plain(unsafe { sys::borvukhai_leave(segments, kib, memory.as_mut_ptr(), memory.len(), mutator) })
}

/// Inside again. Refused Size, Script, Absent, Side (it is inside), Torn.
#[inline]
pub fn enter(segments: u32, kib: u32, memory: &mut [u32], mutator: u32) -> Result<()> {
    // SAFETY: a slice, borrowed for this call alone.
    plain(unsafe { sys::borvukhai_enter(segments, kib, memory.as_mut_ptr(), memory.len(), mutator) })
}

/// A cycle begins, over no segment where none is full or part. Refused Size, NotNow, Torn.
#[inline]
pub fn start(segments: u32, kib: u32, memory: &mut [u32]) -> Result<()> {
    // SAFETY: a slice, borrowed for this call alone.
    plain(unsafe { sys::borvukhai_start(segments, kib, memory.as_mut_ptr(), memory.len()) })
}

/// One small step of the collector. Refused Size, Torn.
#[inline]
pub fn step(segments: u32, kib: u32, memory: &mut [u32]) -> Result<Step> {
    // SAFETY: a slice, borrowed for this call alone.
    Step::unpack(result(unsafe { sys::borvukhai_step(segments, kib, memory.as_mut_ptr(), memory.len()) })?)
}

/// The phase. Refused Size, Torn.
#[inline]
pub fn phase(segments: u32, kib: u32, memory: &[u32]) -> Result<Phase> {
    // SAFETY: a slice, borrowed for this call, which only reads it.
    Phase::unpack(result(unsafe { sys::borvukhai_phase(segments, kib, memory.as_ptr(), memory.len()) })?)
}

/// The segments' records, six words each: tag, class, place, mutator, blocks kept, blocks handed out, as include/borvukhai.h has them.
/// The two counts are copied whatever they are. Refused Size, Torn, and then the output is unchanged.
#[inline]
pub fn states(segments: u32, kib: u32, memory: &[u32], output: &mut [u32]) -> Result<()> {
    // SAFETY: two slices; `output` is borrowed for this call alone, so `memory`, which is only read, does not overlap it.
    plain(unsafe { sys::borvukhai_states(segments, kib, memory.as_ptr(), memory.len(), output.as_mut_ptr(), output.len()) })
}

/// The sheet, a table of the segments in ASCII, as include/borvukhai.h has it. Refused Size, Torn, and then the output is unchanged.
#[inline]
pub fn sheet(segments: u32, kib: u32, memory: &[u32], output: &mut [u8]) -> Result<()> {
    // SAFETY: two slices; `output` is borrowed for this call alone, so `memory`, which is only read, does not overlap it.
    plain(unsafe { sys::borvukhai_sheet(segments, kib, memory.as_ptr(), memory.len(), output.as_mut_ptr(), output.len()) })
}

/// Whether the memory is consistent; the scratch ends all 0. Refused Size only, and then the scratch is unchanged.
#[inline]
pub fn examine(segments: u32, kib: u32, memory: &[u32], scratch: &mut [u32]) -> Result<bool> {
    // SAFETY: two slices; `scratch` is borrowed for this call alone, so `memory`, which is only read, does not overlap it.
    truth(unsafe { sys::borvukhai_examine(segments, kib, memory.as_ptr(), memory.len(), scratch.as_mut_ptr(), scratch.len()) })
}
