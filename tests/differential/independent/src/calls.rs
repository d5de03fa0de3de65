//! The mutators' calls on records: make, load, store, put, get, copy, clear, same and shape.

use core::ops::{Deref, DerefMut};

use crate::answers::{refuse, Answer, Refusal, Shape, MARK, SYNC1, SYNC2};
use crate::classes::{block_start, class_of};
use crate::layout::{held_of, Heap, ACKNOWLEDGED};
use crate::mutators::{check_roots, words_of};
use crate::size::Size;

/// A record that a root names: where its header is, and its counts.
struct Record {
    at: usize,
    shape: Shape,
}

impl Record {
    /// The word of a pointer; refused 8.
    #[inline(always)]
    fn pointer(&self, field: u32) -> Answer<usize> {
        if field >= self.shape.pointers {
            return refuse(Refusal::FIELD);
        }
        Ok(self.at + 1 + field as usize)
    }

    /// The word of a value; refused 8.
    #[inline(always)]
    fn value(&self, field: u32) -> Answer<usize> {
        if field >= self.shape.values {
            return refuse(Refusal::FIELD);
        }
        Ok(self.at + 1 + self.shape.pointers as usize + field as usize)
    }
}

impl<M: Deref<Target = [u32]>> Heap<M> {
    /// The record in a root; refused 7.
    #[inline(always)]
    fn record(&self, own: usize, root: u32) -> Answer<Record> {
        let at = self.word(own + root as usize)? as usize;
        if at == 0 {
            return refuse(Refusal::DARK);
        }
        let header = self.word(at)?;
        Ok(Record { at, shape: Shape { pointers: header >> 16, values: header & 0xffff } })
    }
}

/// Between start and sweep, where stores and new records may have a duty.
#[inline(always)]
fn may_have_duty(phase: u32) -> bool {
    phase.wrapping_sub(SYNC1) <= MARK - SYNC1
}

impl<M: DerefMut<Target = [u32]>> Heap<M> {
    /// The write barrier: between the mutator's first acknowledgement and mark the new value, then the old; in mark the old.
    #[inline(always)]
    fn barrier(&mut self, own: usize, new: u32, old: u32) -> Answer<()> {
        if self.phase()? == MARK {
            return self.queue(old);
        }
        if self.word(own + ACKNOWLEDGED)? != 0 {
            self.queue(new)?;
            self.queue(old)?;
        }
        Ok(())
    }

    /// A record made after the mutator's second acknowledgement and before sweep is born marked. The acknowledgements are counted by the
    /// phase in which they are given.
    #[inline(always)]
    fn birth(&mut self, own: usize, reference: usize) -> Answer<()> {
        if matches!(self.phase()?, SYNC2 | MARK) && self.word(own + ACKNOWLEDGED)? == SYNC2 {
            self.mark_at_birth(reference as u32)?;
        }
        Ok(())
    }

    /// The header, then nil and 0 in every word of a block of this many.
    #[inline(always)]
    fn write_block<const N: usize>(&mut self, at: usize, header: u32) -> Answer<()> {
        let block: &mut [u32; N] = self.array_mut(at)?;
        *block = [0; N];
        block[0] = header;
        Ok(())
    }

    /// The same for a block of a small class.
    #[inline(always)]
    fn write_small(&mut self, at: usize, class: u32, header: u32) -> Answer<()> {
        match class {
            3 => self.write_block::<2>(at, header),
            4 => self.write_block::<4>(at, header),
            5 => self.write_block::<8>(at, header),
            6 => self.write_block::<16>(at, header),
            _ => self.write_block::<32>(at, header),
        }
    }

    /// The same for a block of a larger class, by pieces of 64 words.
    #[inline(always)]
    fn write_large(&mut self, at: usize, class: u32, header: u32) -> Answer<()> {
        for piece in 0..block_start(class, 1) as usize / 64 {
            self.write_block::<64>(at + piece * 64, 0)?;
        }
        self.set(at, header)
    }
}

/// The highest class whose blocks are written at once.
const SMALL: u32 = 7;

/// A new record into root `to`.
#[inline]
pub fn make(segments: u32, kib: u32, mem: &mut [u32], mutator: u32, to: u32, pointers: u32, values: u32) -> Answer<()> {
    let mut heap = Heap::over(segments, kib, mem)?;
    let own = heap.inside(mutator)?;
    check_roots(to)?;
    let class = class_of(u64::from(pointers) + u64::from(values))?;
    let header = pointers << 16 | values;
    let held = held_of(own, class);
    let descriptor = heap.word(held)? as usize;
    if descriptor == 0 || class > SMALL {
        return make_slowly(heap.segments, heap.size, heap.mem, mutator, to, header);
    }
    let at = heap.next_block(descriptor, class)?;
    heap.write_small(at, class, header)?;
    heap.set(own + to as usize, at as u32)?;
    if may_have_duty(heap.phase()?) {
        return make_ends_with_duty(heap.segments, heap.size, heap.mem, own, at, class);
    }
    heap.advance(descriptor, held, class)
}

/// The end of a make between start and sweep.
#[inline(never)]
fn make_ends_with_duty(segments: usize, size: Size, mem: &mut [u32], own: usize, at: usize, class: u32) -> Answer<()> {
    let mut heap = Heap { mem, segments, size };
    heap.birth(own, at)?;
    let held = held_of(own, class);
    let descriptor = heap.word(held)? as usize;
    heap.advance(descriptor, held, class)
}

/// A make of a record of any class, where the mutator may hold no segment of it.
#[inline(never)]
fn make_slowly(segments: usize, size: Size, mem: &mut [u32], mutator: u32, to: u32, header: u32) -> Answer<()> {
    let mut heap = Heap { mem, segments, size };
    let own = words_of(mutator)?;
    let class = class_of(u64::from(header >> 16) + u64::from(header & 0xffff))?;
    let held = held_of(own, class);
    let descriptor = match heap.word(held)? {
        0 => heap.take(mutator, held, class)?,
        descriptor => descriptor as usize,
    };
    let at = heap.next_block(descriptor, class)?;
    if class <= SMALL {
        heap.write_small(at, class, header)?;
    } else {
        heap.write_large(at, class, header)?;
    }
    heap.birth(own, at)?;
    heap.set(own + to as usize, at as u32)?;
    heap.advance(descriptor, held, class)
}

/// A pointer of the record in a root into root `to`.
#[inline]
pub fn load(segments: u32, kib: u32, mem: &mut [u32], mutator: u32, to: u32, root: u32, field: u32) -> Answer<()> {
    let mut heap = Heap::over(segments, kib, mem)?;
    let own = heap.inside(mutator)?;
    check_roots(to | root)?;
    let pointer = heap.record(own, root)?.pointer(field)?;
    let reference = heap.word(pointer)?;
    heap.set(own + to as usize, reference)
}

/// Root `from` into a pointer of the record in a root.
#[inline]
pub fn store(segments: u32, kib: u32, mem: &mut [u32], mutator: u32, root: u32, field: u32, from: u32) -> Answer<()> {
    let mut heap = Heap::over(segments, kib, mem)?;
    let own = heap.inside(mutator)?;
    check_roots(root | from)?;
    let pointer = heap.record(own, root)?.pointer(field)?;
    let new = heap.word(own + from as usize)?;
    if may_have_duty(heap.phase()?) {
        return store_with_duty(heap.segments, heap.size, heap.mem, own, pointer, new);
    }
    heap.set(pointer, new)
}

/// The same between start and sweep.
#[inline(never)]
fn store_with_duty(segments: usize, size: Size, mem: &mut [u32], own: usize, pointer: usize, new: u32) -> Answer<()> {
    let mut heap = Heap { mem, segments, size };
    let old = heap.word(pointer)?;
    heap.barrier(own, new, old)?;
    heap.set(pointer, new)
}

/// A value of the record in a root is set.
#[inline]
pub fn put(segments: u32, kib: u32, mem: &mut [u32], mutator: u32, root: u32, field: u32, value: u32) -> Answer<()> {
    let mut heap = Heap::over(segments, kib, mem)?;
    let own = heap.inside(mutator)?;
    check_roots(root)?;
    let at = heap.record(own, root)?.value(field)?;
    heap.set(at, value)
}

/// A value of the record in a root.
#[inline]
pub fn get(segments: u32, kib: u32, mem: &[u32], mutator: u32, root: u32, field: u32) -> Answer<u32> {
    let heap = Heap::over(segments, kib, mem)?;
    let own = heap.inside(mutator)?;
    check_roots(root)?;
    let at = heap.record(own, root)?.value(field)?;
    heap.word(at)
}

/// Root `from` into root `to`.
#[inline]
pub fn copy(segments: u32, kib: u32, mem: &mut [u32], mutator: u32, to: u32, from: u32) -> Answer<()> {
    let mut heap = Heap::over(segments, kib, mem)?;
    let own = heap.inside(mutator)?;
    check_roots(to | from)?;
    let reference = heap.word(own + from as usize)?;
    heap.set(own + to as usize, reference)
}

/// Nil into root `to`.
#[inline]
pub fn clear(segments: u32, kib: u32, mem: &mut [u32], mutator: u32, to: u32) -> Answer<()> {
    let mut heap = Heap::over(segments, kib, mem)?;
    let own = heap.inside(mutator)?;
    check_roots(to)?;
    heap.set(own + to as usize, 0)
}

/// Are two roots the same record, or both nil?
#[inline]
pub fn same(segments: u32, kib: u32, mem: &[u32], mutator: u32, root: u32, other: u32) -> Answer<bool> {
    let heap = Heap::over(segments, kib, mem)?;
    let own = heap.inside(mutator)?;
    check_roots(root | other)?;
    Ok(heap.word(own + root as usize)? == heap.word(own + other as usize)?)
}

/// The counts of the record in a root.
#[inline]
pub fn shape(segments: u32, kib: u32, mem: &[u32], mutator: u32, root: u32) -> Answer<Shape> {
    let heap = Heap::over(segments, kib, mem)?;
    let own = heap.inside(mutator)?;
    check_roots(root)?;
    Ok(heap.record(own, root)?.shape)
}
