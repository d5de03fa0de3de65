//! The exports of include/borvukhai.h, declared as that header has them.
//!
//! A slice is a pointer that is not null, aligned to 4 bytes, to `length` words that may be read (written too, where it is `*mut`) and
//! that overlap no other slice of the call; the output of `borvukhai_sheet` is so many bytes, at any address. That is all that an unsafe
//! call here must see to: numbers and words may be any.

unsafe extern "C" {
    pub safe fn borvukhai_length(segments: u32, kib: u32) -> usize;
    pub safe fn borvukhai_states_length(segments: u32, kib: u32) -> usize;
    pub safe fn borvukhai_scratch_length(segments: u32, kib: u32) -> usize;
    pub safe fn borvukhai_sheet_length(segments: u32, kib: u32) -> usize;
    pub safe fn borvukhai_layout() -> u32;

    pub fn borvukhai_open(segments: u32, kib: u32, mem: *mut u32, length: usize) -> u32;

    pub fn borvukhai_attach(segments: u32, kib: u32, mem: *mut u32, length: usize, mutator: u32) -> u32;
    pub fn borvukhai_spawn(segments: u32, kib: u32, mem: *mut u32, length: usize, mutator: u32, parent: u32, root: u32) -> u32;
    pub fn borvukhai_detach(segments: u32, kib: u32, mem: *mut u32, length: usize, mutator: u32) -> u32;

    pub fn borvukhai_make(segments: u32, kib: u32, mem: *mut u32, length: usize, mutator: u32, to: u32, pointers: u32, values: u32) -> u32;
    pub fn borvukhai_load(segments: u32, kib: u32, mem: *mut u32, length: usize, mutator: u32, to: u32, root: u32, field: u32) -> u32;
    pub fn borvukhai_store(segments: u32, kib: u32, mem: *mut u32, length: usize, mutator: u32, root: u32, field: u32, from: u32) -> u32;
    pub fn borvukhai_put(segments: u32, kib: u32, mem: *mut u32, length: usize, mutator: u32, root: u32, field: u32, value: u32) -> u32;
    pub fn borvukhai_copy(segments: u32, kib: u32, mem: *mut u32, length: usize, mutator: u32, to: u32, from: u32) -> u32;
    pub fn borvukhai_clear(segments: u32, kib: u32, mem: *mut u32, length: usize, mutator: u32, to: u32) -> u32;
    pub fn borvukhai_get(segments: u32, kib: u32, mem: *const u32, length: usize, mutator: u32, root: u32, field: u32) -> u64;
    pub fn borvukhai_same(segments: u32, kib: u32, mem: *const u32, length: usize, mutator: u32, root: u32, other: u32) -> u64;
    pub fn borvukhai_shape(segments: u32, kib: u32, mem: *const u32, length: usize, mutator: u32, root: u32) -> u64;

    pub fn borvukhai_check(segments: u32, kib: u32, mem: *mut u32, length: usize, mutator: u32) -> u32;
    pub fn borvukhai_leave(segments: u32, kib: u32, mem: *mut u32, length: usize, mutator: u32) -> u32;
    pub fn borvukhai_enter(segments: u32, kib: u32, mem: *mut u32, length: usize, mutator: u32) -> u32;

    pub fn borvukhai_start(segments: u32, kib: u32, mem: *mut u32, length: usize) -> u32;
    pub fn borvukhai_step(segments: u32, kib: u32, mem: *mut u32, length: usize) -> u64;

    pub fn borvukhai_phase(segments: u32, kib: u32, mem: *const u32, length: usize) -> u64;
    pub fn borvukhai_states(segments: u32, kib: u32, mem: *const u32, length: usize, output: *mut u32, output_length: usize) -> u32;
    pub fn borvukhai_sheet(segments: u32, kib: u32, mem: *const u32, length: usize, output: *mut u8, output_length: usize) -> u32;
    pub fn borvukhai_examine(segments: u32, kib: u32, mem: *const u32, length: usize, scratch: *mut u32, scratch_length: usize) -> u64;
}
