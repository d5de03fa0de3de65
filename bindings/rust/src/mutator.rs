//! A mutator's own calls, through a handle that borrows the heap.

use core::fmt;

use crate::numbers::{MutatorId, Root, Shape};
use crate::raw;
use crate::refusal::Result;
use crate::segments::{SegmentSize, Segments};

/// A handle on one mutator (document 01: script) of a heap, for its calls.
///
/// It borrows the heap exclusively, which is what makes calls run one at a time. It is only a name: taking one costs nothing, and
/// dropping one changes nothing. In particular the mutator stays attached, since a [`detach`](Mutator::detach) may be refused; take a
/// handle again with [`Heap::mutator`](crate::Heap::mutator).
///
/// Each call may be refused [`Absent`](crate::Refusal::Absent) where the mutator is not attached and, but for
/// [`enter`](Mutator::enter), [`Side`](crate::Refusal::Side) where it is outside. Script and Slot cannot happen here, Size only over memory
/// that does not lend the same words each time, and [`Torn`](crate::Refusal::Torn) only over memory that fails the examination. Each call
/// below names what else refuses it.
pub struct Mutator<'h> {
    segments: Segments,
    size: SegmentSize,
    memory: &'h mut [u32],
    id: MutatorId,
}

impl fmt::Debug for Mutator<'_> {
    fn fmt(&self, f: &mut fmt::Formatter<'_>) -> fmt::Result {
        f.debug_struct("Mutator").field("id", &self.id.number()).finish_non_exhaustive()
    }
}

impl<'h> Mutator<'h> {
    #[inline]
    pub(crate) fn new(segments: Segments, size: SegmentSize, memory: &'h mut [u32], id: MutatorId) -> Mutator<'h> {
        Mutator { segments, size, memory, id }
    }

    #[inline]
    fn count(&self) -> u32 {
        self.segments.count()
    }

    #[inline]
    fn kib(&self) -> u32 {
        self.size.kib()
    }

    /// The mutator's number.
    #[inline]
    pub fn id(&self) -> MutatorId {
        self.id
    }

    /// A new record, its pointers nil and its values 0, into root `to`. Refused TooBig and NoRoom.
    ///
    /// On NoRoom, a cycle may help: it hands back blocks that nobody reached when it began, of segments that were full
    /// or part then; until its sweep such a segment is no room. Where [`states`](crate::Heap::states) shows no full,
    /// part or condemned segment, no cycle can help.
    #[inline]
    pub fn make(&mut self, to: Root, shape: Shape) -> Result<()> {
        raw::make(self.count(), self.kib(), self.memory, self.id.number(), to.number(), shape.pointers, shape.values)
    }

    /// Pointer `field` of the record in `root` into root `to`. Refused Dark and Field.
    #[inline]
    pub fn load(&mut self, to: Root, root: Root, field: u32) -> Result<()> {
        raw::load(self.count(), self.kib(), self.memory, self.id.number(), to.number(), root.number(), field)
    }

    /// Root `from` into pointer `field` of the record in `root`, with the write barrier that a cycle asks for. Refused Dark and Field.
    #[inline]
    pub fn store(&mut self, root: Root, field: u32, from: Root) -> Result<()> {
        raw::store(self.count(), self.kib(), self.memory, self.id.number(), root.number(), field, from.number())
    }

    /// `value` into value `field` of the record in `root`. Refused Dark and Field.
    #[inline]
    pub fn put(&mut self, root: Root, field: u32, value: u32) -> Result<()> {
        raw::put(self.count(), self.kib(), self.memory, self.id.number(), root.number(), field, value)
    }

    /// Value `field` of the record in `root`. Refused Dark and Field.
    #[inline]
    pub fn get(&self, root: Root, field: u32) -> Result<u32> {
        raw::get(self.count(), self.kib(), self.memory, self.id.number(), root.number(), field)
    }

    /// Root `from` into root `to`.
    #[inline]
    pub fn copy(&mut self, to: Root, from: Root) -> Result<()> {
        raw::copy(self.count(), self.kib(), self.memory, self.id.number(), to.number(), from.number())
    }

    /// Nil into root `to`.
    #[inline]
    pub fn clear(&mut self, to: Root) -> Result<()> {
        raw::clear(self.count(), self.kib(), self.memory, self.id.number(), to.number())
    }

    /// Whether two roots are the same record, or both nil.
    #[inline]
    pub fn same(&self, root: Root, other: Root) -> Result<bool> {
        raw::same(self.count(), self.kib(), self.memory, self.id.number(), root.number(), other.number())
    }

    /// The counts of the record in `root`. Refused Dark.
    #[inline]
    pub fn shape(&self, root: Root) -> Result<Shape> {
        raw::shape(self.count(), self.kib(), self.memory, self.id.number(), root.number())
    }

    /// The acknowledgement of a handshake, where this mutator owes one; otherwise nothing. A mutator that is inside calls it between its
    /// own steps.
    #[inline]
    pub fn check(&mut self) -> Result<()> {
        raw::check(self.count(), self.kib(), self.memory, self.id.number())
    }

    /// A check, then outside: for a mutator that will not call for long. The collector then acknowledges for it.
    #[inline]
    pub fn leave(&mut self) -> Result<()> {
        raw::leave(self.count(), self.kib(), self.memory, self.id.number())
    }

    /// Inside again. Refused Side where it is inside.
    #[inline]
    pub fn enter(&mut self) -> Result<()> {
        raw::enter(self.count(), self.kib(), self.memory, self.id.number())
    }

    /// The mutator goes for good; its roots are emptied, and its segments are for others to use. Refused NotNow in a handshake: then it
    /// is still attached.
    #[inline]
    pub fn detach(self) -> Result<()> {
        raw::detach(self.count(), self.kib(), self.memory, self.id.number())
    }
}
