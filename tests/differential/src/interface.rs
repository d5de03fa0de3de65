//! The C interface of include/borvukhai.h, twice: the verified library (prefix borvukhai) and the independent implementation
//! (prefix independent), each as a table of functions.

use crate::calls::*;
use crate::layout::Geometry;
// Links the independent implementation.
use independent as _;

/// A slice that is lent: its first word, or byte, and its length.
#[derive(Clone, Copy)]
pub struct Slice<T = u32>(pub *mut T, pub usize);

impl<T> Slice<T> {
    /// A pointer to nothing.
    pub const NONE: Slice<T> = Slice(std::ptr::NonNull::dangling().as_ptr(), 0);
}

/// What a call is lent beside the memory, where it takes it: an output or a scratch of words, or an output of bytes.
#[derive(Clone, Copy)]
pub struct Extra {
    pub words: Slice,
    pub bytes: Slice<u8>,
}

impl Extra {
    pub const NONE: Extra = Extra { words: Slice::NONE, bytes: Slice::NONE };
}

macro_rules! implementation {
    ($module:ident, $prefix:literal; $($link:ident: ($($number:ident),*) -> $answer:ty;)*) => {
        mod $module {
            extern "C" {
                #[link_name = concat!($prefix, "_length")]
                pub fn length(segments: u32, kib: u32) -> usize;
                #[link_name = concat!($prefix, "_states_length")]
                pub fn states_length(segments: u32, kib: u32) -> usize;
                #[link_name = concat!($prefix, "_scratch_length")]
                pub fn scratch_length(segments: u32, kib: u32) -> usize;
                #[link_name = concat!($prefix, "_sheet_length")]
                pub fn sheet_length(segments: u32, kib: u32) -> usize;
                #[link_name = concat!($prefix, "_states")]
                pub fn states(n: u32, kib: u32, mem: *const u32, length: usize, output: *mut u32, output_length: usize) -> u32;
                #[link_name = concat!($prefix, "_sheet")]
                pub fn sheet(n: u32, kib: u32, mem: *const u32, length: usize, output: *mut u8, output_length: usize) -> u32;
                #[link_name = concat!($prefix, "_examine")]
                pub fn examine(n: u32, kib: u32, mem: *const u32, length: usize, scratch: *mut u32, scratch_length: usize) -> u64;
                $(
                    #[link_name = concat!($prefix, "_", stringify!($link))]
                    pub fn $link(n: u32, kib: u32, mem: *mut u32, length: usize, $($number: u32),*) -> $answer;
                )*
            }
            pub static TABLE: super::Interface = super::Interface {
                length, states_length, scratch_length, sheet_length, states, sheet, examine, $($link),*
            };
        }
    };
}

macro_rules! interface {
    ($($link:ident: ($($number:ident),*) -> $answer:ty;)*) => {
        pub struct Interface {
            length: unsafe extern "C" fn(u32, u32) -> usize,
            states_length: unsafe extern "C" fn(u32, u32) -> usize,
            scratch_length: unsafe extern "C" fn(u32, u32) -> usize,
            sheet_length: unsafe extern "C" fn(u32, u32) -> usize,
            states: unsafe extern "C" fn(u32, u32, *const u32, usize, *mut u32, usize) -> u32,
            sheet: unsafe extern "C" fn(u32, u32, *const u32, usize, *mut u8, usize) -> u32,
            examine: unsafe extern "C" fn(u32, u32, *const u32, usize, *mut u32, usize) -> u64,
            $($link: unsafe extern "C" fn(u32, u32, *mut u32, usize, $(interface!(@word $number)),*) -> $answer,)*
        }
        implementation!(borvukhai, "borvukhai"; $($link: ($($number),*) -> $answer;)*);
        implementation!(second, "independent"; $($link: ($($number),*) -> $answer;)*);
    };
    (@word $number:ident) => { u32 };
}

interface! {
    open: () -> u32;
    attach: (mutator) -> u32;
    spawn: (mutator, parent, root) -> u32;
    detach: (mutator) -> u32;
    make: (mutator, to, pointers, values) -> u32;
    load: (mutator, to, root, field) -> u32;
    store: (mutator, root, field, from) -> u32;
    put: (mutator, root, field, value) -> u32;
    copy: (mutator, to, from) -> u32;
    clear: (mutator, to) -> u32;
    check: (mutator) -> u32;
    leave: (mutator) -> u32;
    enter: (mutator) -> u32;
    start: () -> u32;
    get: (mutator, root, field) -> u64;
    same: (mutator, root, other) -> u64;
    shape: (mutator, root) -> u64;
    step: () -> u64;
    phase: () -> u64;
}

pub fn verified() -> &'static Interface {
    &borvukhai::TABLE
}

pub fn independent() -> &'static Interface {
    &second::TABLE
}

impl Interface {
    pub fn length(&self, g: Geometry) -> usize {
        unsafe { (self.length)(g.segments, g.kib) }
    }

    pub fn states_length(&self, g: Geometry) -> usize {
        unsafe { (self.states_length)(g.segments, g.kib) }
    }

    pub fn scratch_length(&self, g: Geometry) -> usize {
        unsafe { (self.scratch_length)(g.segments, g.kib) }
    }

    /// In bytes; all others are in words.
    pub fn sheet_length(&self, g: Geometry) -> usize {
        unsafe { (self.sheet_length)(g.segments, g.kib) }
    }

    /// Plays one call.
    ///
    /// # Safety
    /// `mem`, and of `extra` what the call takes, are valid for reads and writes over their lengths, and do not overlap.
    pub unsafe fn play(&self, call: &Call, mem: Slice, extra: Extra) -> u64 {
        let (Geometry { segments: n, kib }, Slice(at, length)) = (call.named, mem);
        let [w, x, y, z] = call.args;
        let (Slice(words, count), Slice(bytes, size)) = (extra.words, extra.bytes);
        match call.kind {
            Open => (self.open)(n, kib, at, length).into(),
            Attach => (self.attach)(n, kib, at, length, w).into(),
            Spawn => (self.spawn)(n, kib, at, length, w, x, y).into(),
            Detach => (self.detach)(n, kib, at, length, w).into(),
            Make => (self.make)(n, kib, at, length, w, x, y, z).into(),
            Load => (self.load)(n, kib, at, length, w, x, y, z).into(),
            Store => (self.store)(n, kib, at, length, w, x, y, z).into(),
            Put => (self.put)(n, kib, at, length, w, x, y, z).into(),
            Copy => (self.copy)(n, kib, at, length, w, x, y).into(),
            Clear => (self.clear)(n, kib, at, length, w, x).into(),
            Check => (self.check)(n, kib, at, length, w).into(),
            Leave => (self.leave)(n, kib, at, length, w).into(),
            Enter => (self.enter)(n, kib, at, length, w).into(),
            Start => (self.start)(n, kib, at, length).into(),
            Step => (self.step)(n, kib, at, length),
            Get => (self.get)(n, kib, at, length, w, x, y),
            Same => (self.same)(n, kib, at, length, w, x, y),
            Shape => (self.shape)(n, kib, at, length, w, x),
            Phase => (self.phase)(n, kib, at, length),
            States => (self.states)(n, kib, at, length, words, count).into(),
            Sheet => (self.sheet)(n, kib, at, length, bytes, size).into(),
            Examine => (self.examine)(n, kib, at, length, words, count),
        }
    }
}
