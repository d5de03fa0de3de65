//! A heap over memory that it owns or borrows: opening, taking over memory that holds a heap, and the mutators that come in.

use core::fmt;

use crate::mutator::Mutator;
use crate::numbers::{MutatorId, Root};
use crate::raw;
use crate::refusal::{Refusal, Refused, Result};
use crate::segments::{SegmentSize, Segments};

/// A heap in memory `M`: anything that lends its words, such as `&mut [u32]`, `[u32; N]`, `&'static mut [u32; N]` or `Box<[u32]>`.
///
/// All that a heap is, it is in these words; this type adds the segments' count and size and nothing else. Calls that change them take
/// `&mut self`, so that one call runs at a time. A program that shares a heap between threads puts it in a mutex; one that shares it with
/// an interrupt, in its critical section.
///
/// `M` is to lend the same words each time. One that does not is no danger, but its calls are refused Size, or find another heap.
///
/// ```
/// use borvukhai::{Heap, Refusal, SegmentSize, Segments};
///
/// const SEGMENTS: Segments = Segments::new(1).unwrap();
/// const SIZE: SegmentSize = SegmentSize::Kib32;
///
/// let mut words = [0xdead_beef; SEGMENTS.length(SIZE)]; // of any content
/// let heap = Heap::open(SEGMENTS, SIZE, &mut words)?;
/// assert_eq!((heap.segments(), heap.segment_size()), (SEGMENTS, SIZE));
///
/// // Memory of another length is handed back.
/// let refused = Heap::open(SEGMENTS, SIZE, [0; 10]).unwrap_err();
/// assert_eq!(refused.refusal, Refusal::Size);
/// assert_eq!(refused.memory, [0; 10]);
/// # Ok::<(), Refusal>(())
/// ```
pub struct Heap<M> {
    segments: Segments,
    size: SegmentSize,
    memory: M,
}

impl<M> fmt::Debug for Heap<M> {
    fn fmt(&self, f: &mut fmt::Formatter<'_>) -> fmt::Result {
        f.debug_struct("Heap").field("segments", &self.segments.count()).field("kib", &self.size.kib()).finish_non_exhaustive()
    }
}

impl<M> Heap<M> {
    /// How many segments it has.
    pub fn segments(&self) -> Segments {
        self.segments
    }

    /// The size of each of them.
    pub fn segment_size(&self) -> SegmentSize {
        self.size
    }

    /// The memory, with the heap in it: [`adopt`](Heap::adopt) takes it up again.
    pub fn into_memory(self) -> M {
        self.memory
    }
}

impl<M: AsRef<[u32]> + AsMut<[u32]>> Heap<M> {
    /// An empty heap in memory of any content: every segment free, no mutator attached, no cycle. Refused Size where the memory has not
    /// [`Segments::length`] words.
    pub fn open(segments: Segments, size: SegmentSize, mut memory: M) -> core::result::Result<Heap<M>, Refused<M>> {
        match raw::open(segments.count(), size.kib(), memory.as_mut()) {
            Ok(()) => Ok(Heap { segments, size, memory }),
            Err(refusal) => Err(Refused { refusal, memory }),
        }
    }

    /// The heap that memory holds already, such as memory that a battery kept through a restart. It is examined first, through a scratch
    /// of [`Segments::scratch_length`] words, which ends all 0. Refused Size where memory or scratch has another length, and Torn
    /// where the memory fails the examination. No word of it is changed.
    ///
    /// ```
    /// use borvukhai::{Heap, MutatorId, Refusal, Root, SegmentSize, Segments, Shape};
    ///
    /// const SEGMENTS: Segments = Segments::new(1).unwrap();
    /// const SIZE: SegmentSize = SegmentSize::Kib16;
    /// const ID: MutatorId = MutatorId::new(3).unwrap();
    ///
    /// let mut kept = vec![0; SEGMENTS.length(SIZE)];
    /// let mut heap = Heap::open(SEGMENTS, SIZE, &mut kept)?;
    /// let mut mutator = heap.attach(ID)?;
    /// mutator.make(Root::R0, Shape::new(0, 1))?;
    /// mutator.put(Root::R0, 0, 77)?;
    ///
    /// // After a restart, with the words as they were:
    /// let mut scratch = vec![0; SEGMENTS.scratch_length(SIZE)];
    /// let mut heap = Heap::adopt(SEGMENTS, SIZE, &mut kept, &mut scratch)?;
    /// assert_eq!(heap.mutator(ID).get(Root::R0, 0)?, 77);
    ///
    /// // With a word of the phase lost:
    /// kept[0] = 9;
    /// let refused = Heap::adopt(SEGMENTS, SIZE, &mut kept, &mut scratch).unwrap_err();
    /// assert_eq!(refused.refusal, Refusal::Torn);
    /// # Ok::<(), Refusal>(())
    /// ```
    pub fn adopt(segments: Segments, size: SegmentSize, memory: M, scratch: &mut [u32]) -> core::result::Result<Heap<M>, Refused<M>> {
        match raw::examine(segments.count(), size.kib(), memory.as_ref(), scratch) {
            Ok(true) => Ok(Heap { segments, size, memory }),
            Ok(false) => Err(Refused { refusal: Refusal::Torn, memory }),
            Err(refusal) => Err(Refused { refusal, memory }),
        }
    }

    /// The heap that memory holds already, not examined. Refused Size where the memory has not [`Segments::length`] words.
    ///
    /// It is safe over words of any content: each call ends, and keeps within the memory. But over memory that fails the examination a
    /// call may answer Torn, or something that document 01 does not say.
    pub fn adopt_unexamined(segments: Segments, size: SegmentSize, memory: M) -> core::result::Result<Heap<M>, Refused<M>> {
        if memory.as_ref().len() == segments.length(size) {
            Ok(Heap { segments, size, memory })
        } else {
            Err(Refused { refusal: Refusal::Size, memory })
        }
    }

    /// The words, to read; docs/LAYOUT.md says what they hold.
    pub fn memory(&self) -> &[u32] {
        self.memory.as_ref()
    }

    pub(crate) fn words(&mut self) -> &mut [u32] {
        self.memory.as_mut()
    }

    /// A mutator comes in, inside, its roots nil. Refused Taken where the number is in use, and NotNow in a handshake.
    pub fn attach(&mut self, id: MutatorId) -> Result<Mutator<'_>> {
        raw::attach(self.segments.count(), self.size.kib(), self.words(), id.number())?;
        Ok(self.mutator(id))
    }

    /// A mutator comes in, inside; its root 0 is a copy of `root` of `parent`, the others are nil. Refused Taken where the number is in
    /// use, Absent or Side where the parent is not attached or outside, and NotNow in a handshake.
    pub fn spawn(&mut self, id: MutatorId, parent: MutatorId, root: Root) -> Result<Mutator<'_>> {
        raw::spawn(self.segments.count(), self.size.kib(), self.words(), id.number(), parent.number(), root.number())?;
        Ok(self.mutator(id))
    }

    /// A handle on a mutator, for its calls. Nothing is asked of the heap here: a call by a mutator that is not attached is refused
    /// Absent.
    #[inline]
    pub fn mutator(&mut self, id: MutatorId) -> Mutator<'_> {
        Mutator::new(self.segments, self.size, self.memory.as_mut(), id)
    }
}

#[cfg(feature = "alloc")]
impl Heap<alloc::boxed::Box<[u32]>> {
    /// An empty heap in memory of its own.
    pub fn new(segments: Segments, size: SegmentSize) -> Self {
        let mut memory = alloc::vec![0; segments.length(size)].into_boxed_slice();
        // The count is 1 to 256, the size one of the two, and the length is theirs: there is nothing to refuse.
        let opened = raw::open(segments.count(), size.kib(), &mut memory);
        debug_assert_eq!(opened, Ok(()));
        Heap { segments, size, memory }
    }
}
