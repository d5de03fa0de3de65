//! The exports, with the signatures of the C interface and the prefix `independent_`.
//!
//! A slice is formed only once its length is known to be right, so that a call refused 1 touches no memory.

use core::slice::{from_raw_parts, from_raw_parts_mut};

use crate::answers::{pack, pack_result, Refusal};
use crate::layout::{self, fits};
use crate::looks;

/// Calls that change the heap.
macro_rules! changing {
    ($($export:ident = $call:ident ($($number:ident),*) -> $answer:ty, $pack:ident;)*) => {$(
        /// # Safety
        /// Where the length is right, `mem` is a lent slice as the C interface says.
        #[no_mangle]
        pub unsafe extern "C" fn $export(segments: u32, kib: u32, mem: *mut u32, length: usize $(, $number: u32)*) -> $answer {
            if !fits(segments, kib, length) {
                return Refusal::SIZE.number().into();
            }
            $pack(crate::$call(segments, kib, unsafe { from_raw_parts_mut(mem, length) } $(, $number)*))
        }
    )*};
}

/// Calls that only read it.
macro_rules! reading {
    ($($export:ident = $call:path, ($($number:ident),*);)*) => {$(
        /// # Safety
        /// Where the length is right, `mem` is a lent slice as the C interface says.
        #[no_mangle]
        pub unsafe extern "C" fn $export(segments: u32, kib: u32, mem: *const u32, length: usize $(, $number: u32)*) -> u64 {
            if !fits(segments, kib, length) {
                return Refusal::SIZE.number().into();
            }
            pack_result($call(segments, kib, unsafe { from_raw_parts(mem, length) } $(, $number)*))
        }
    )*};
}

changing! {
    independent_open = open() -> u32, pack;
    independent_attach = attach(mutator) -> u32, pack;
    independent_spawn = spawn(mutator, parent, root) -> u32, pack;
    independent_detach = detach(mutator) -> u32, pack;
    independent_make = make(mutator, to, pointers, values) -> u32, pack;
    independent_load = load(mutator, to, root, field) -> u32, pack;
    independent_store = store(mutator, root, field, from) -> u32, pack;
    independent_put = put(mutator, root, field, value) -> u32, pack;
    independent_copy = copy(mutator, to, from) -> u32, pack;
    independent_clear = clear(mutator, to) -> u32, pack;
    independent_check = check(mutator) -> u32, pack;
    independent_leave = leave(mutator) -> u32, pack;
    independent_enter = enter(mutator) -> u32, pack;
    independent_start = start() -> u32, pack;
    independent_step = step() -> u64, pack_result;
}

reading! {
    independent_get = crate::get, (mutator, root, field);
    independent_same = crate::same, (mutator, root, other);
    independent_shape = crate::shape, (mutator, root);
    independent_phase = looks::phase, ();
}

#[no_mangle]
pub extern "C" fn independent_length(segments: u32, kib: u32) -> usize {
    layout::length(segments, kib)
}

#[no_mangle]
pub extern "C" fn independent_states_length(segments: u32, kib: u32) -> usize {
    layout::states_length(segments, kib)
}

#[no_mangle]
pub extern "C" fn independent_scratch_length(segments: u32, kib: u32) -> usize {
    layout::scratch_length(segments, kib)
}

#[no_mangle]
pub extern "C" fn independent_sheet_length(segments: u32, kib: u32) -> usize {
    layout::sheet_length(segments, kib)
}

/// # Safety
/// Where both lengths are right, `mem` and `output` are lent slices as the C interface says.
#[no_mangle]
pub unsafe extern "C" fn independent_states(segments: u32, kib: u32, mem: *const u32, length: usize, output: *mut u32, output_length: usize) -> u32 {
    if !fits(segments, kib, length) || output_length != layout::states_length(segments, kib) {
        return Refusal::SIZE.number();
    }
    let (mem, output) = unsafe { (from_raw_parts(mem, length), from_raw_parts_mut(output, output_length)) };
    pack(looks::states(segments, kib, mem, output))
}

/// # Safety
/// Where both lengths are right, `mem` and `output` are lent slices, of words and of bytes, as the C interface says.
#[no_mangle]
pub unsafe extern "C" fn independent_sheet(segments: u32, kib: u32, mem: *const u32, length: usize, output: *mut u8, output_length: usize) -> u32 {
    if !fits(segments, kib, length) || output_length != layout::sheet_length(segments, kib) {
        return Refusal::SIZE.number();
    }
    let (mem, output) = unsafe { (from_raw_parts(mem, length), from_raw_parts_mut(output, output_length)) };
    pack(crate::sheet(segments, kib, mem, output))
}

/// # Safety
/// Where both lengths are right, `mem` and `scratch` are lent slices as the C interface says.
#[no_mangle]
pub unsafe extern "C" fn independent_examine(
    segments: u32,
    kib: u32,
    mem: *const u32,
    length: usize,
    scratch: *mut u32,
    scratch_length: usize,
) -> u64 {
    if !fits(segments, kib, length) || scratch_length != layout::scratch_length(segments, kib) {
        return Refusal::SIZE.number().into();
    }
    let (mem, scratch) = unsafe { (from_raw_parts(mem, length), from_raw_parts_mut(scratch, scratch_length)) };
    pack_result(crate::examine(segments, kib, mem, scratch))
}
