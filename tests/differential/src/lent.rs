//! Memory that is lent to one implementation: the words, and guard words before and behind that no call may touch; of the sheet, bytes.

use crate::calls::{Call, Kind, Length};
use crate::interface::{Extra, Interface, Slice};
use crate::layout::Geometry;

/// A word or a byte.
pub trait Item: Copy + Default + PartialEq {
    /// What stands at an index of the guards.
    fn guard(index: usize) -> Self;
}

impl Item for u32 {
    fn guard(index: usize) -> u32 {
        0xa5c3_0f69 ^ (index as u32).wrapping_mul(0x9e37_79b9)
    }
}

impl Item for u8 {
    fn guard(index: usize) -> u8 {
        (u32::guard(index) >> 24) as u8
    }
}

/// Words or bytes in a block of their own. With a guard of 0 the block ends where the slice ends, so that valgrind sees a step outside.
pub struct Guarded<T = u32> {
    items: Box<[T]>,
    guard: usize,
}

impl<T: Item> Guarded<T> {
    pub fn new(length: usize, guard: usize) -> Guarded<T> {
        let mut items = vec![T::default(); length + 2 * guard].into_boxed_slice();
        for (index, item) in items.iter_mut().enumerate() {
            if index < guard || index >= guard + length {
                *item = T::guard(index);
            }
        }
        Guarded { items, guard }
    }

    pub fn len(&self) -> usize {
        self.items.len() - 2 * self.guard
    }

    fn items(&self) -> &[T] {
        &self.items[self.guard..self.items.len() - self.guard]
    }

    fn items_mut(&mut self) -> &mut [T] {
        let end = self.items.len() - self.guard;
        &mut self.items[self.guard..end]
    }

    /// The slice of so many from the first on; with length 0, a pointer to nothing.
    pub fn slice(&mut self, length: usize) -> Slice<T> {
        assert!(length <= self.len() + self.guard);
        match length {
            0 => Slice::NONE,
            _ => Slice(self.items[self.guard..].as_mut_ptr(), length),
        }
    }

    pub fn guards_hold(&self) -> bool {
        let behind = self.items.len() - self.guard;
        (0..self.guard).chain(behind..self.items.len()).all(|index| self.items[index] == T::guard(index))
    }
}

impl Guarded<u32> {
    pub fn words(&self) -> &[u32] {
        self.items()
    }

    pub fn words_mut(&mut self) -> &mut [u32] {
        self.items_mut()
    }
}

impl Guarded<u8> {
    pub fn bytes(&self) -> &[u8] {
        self.items()
    }

    pub fn bytes_mut(&mut self) -> &mut [u8] {
        self.items_mut()
    }
}

/// What one implementation is lent for a list: memory, output of the look at the states, scratch of the examination, and output of the sheet.
pub struct Lent {
    interface: &'static Interface,
    g: Geometry,
    guard: usize,
    pub memory: Guarded,
    pub output: Guarded,
    pub scratch: Guarded,
    pub sheet: Guarded<u8>,
}

/// The right length of a slice, by count and size.
type Right = fn(&Interface, Geometry) -> usize;

/// So many guard bytes that the slice of bytes, which needs no alignment, begins at an odd address.
fn byte_guard(guard: usize) -> usize {
    match guard {
        0 => 0,
        guard => guard | 3,
    }
}

impl Lent {
    pub fn new(interface: &'static Interface, g: Geometry, guard: usize) -> Lent {
        Lent {
            interface,
            g,
            guard,
            memory: Guarded::new(interface.length(g), guard),
            output: Guarded::new(interface.states_length(g), guard),
            scratch: Guarded::new(interface.scratch_length(g), guard),
            sheet: Guarded::new(interface.sheet_length(g), byte_guard(guard)),
        }
    }

    /// The words that `length` names, where `former` is the one before request No. 3; never more than is there.
    fn words(&self, length: Length, right: Right, former: usize, present: usize) -> usize {
        let whole = right(self.interface, self.g);
        let named = match length {
            Length::Right => whole,
            Length::Zero => 0,
            Length::Of(other) => right(self.interface, other),
            Length::Longer(by) => whole + by as usize,
            Length::Shorter(by) => whole.saturating_sub(by as usize),
            Length::Former => former,
        };
        named.min(present + self.guard)
    }

    /// The words of the memory that the call names, and of its output or scratch, of a sheet the bytes: how the right number follows, and
    /// the number.
    fn lengths(&self, call: &Call) -> (usize, Option<(Right, usize)>) {
        let [former, output, ..] = self.g.lengths();
        let memory = self.words(call.length, Interface::length, former - 2 * self.g.n(), self.memory.len());
        let (right, former, present): (Right, _, _) = match call.kind {
            Kind::States => (Interface::states_length, output - 2 * self.g.n(), self.output.len()),
            Kind::Sheet => (Interface::sheet_length, 0, self.sheet.len()),
            Kind::Examine => (Interface::scratch_length, 0, self.scratch.len()),
            _ => return (memory, None),
        };
        (memory, Some((right, self.words(call.extra, right, former, present))))
    }

    /// Whether all lengths are right for the count and the size that the call names: of this heap, or of another one.
    pub fn fits(&self, call: &Call) -> bool {
        let (memory, extra) = self.lengths(call);
        let is_right = |right: Right, length: usize| length != 0 && right(self.interface, call.named) == length;
        is_right(Interface::length, memory) && extra.is_none_or(|(right, length)| is_right(right, length))
    }

    pub fn play(&mut self, call: &Call) -> u64 {
        let (length, extra) = self.lengths(call);
        let memory = self.memory.slice(length);
        let extra = match (call.kind, extra) {
            (Kind::States, Some((_, words))) => Extra { words: self.output.slice(words), ..Extra::NONE },
            (Kind::Sheet, Some((_, bytes))) => Extra { bytes: self.sheet.slice(bytes), ..Extra::NONE },
            (_, Some((_, words))) => Extra { words: self.scratch.slice(words), ..Extra::NONE },
            _ => Extra::NONE,
        };
        // Each slice lies within its own block, guard included.
        unsafe { self.interface.play(call, memory, extra) }
    }

    pub fn guards_hold(&self) -> bool {
        self.memory.guards_hold() && self.output.guards_hold() && self.scratch.guards_hold() && self.sheet.guards_hold()
    }
}
