//! A record heap with an incremental, non-moving garbage collector, in lent memory: a safe wrapper of the library that is proved in
//! Rattle, over its C interface (include/borvukhai.h).
//!
//! Mutators keep records in their roots and change them by calls; the collector works in small steps between those calls. Every call
//! ends, keeps within the lent memory and answers a result or a [`Refusal`], whatever numbers it is given and whatever the memory
//! holds. The paper "The R5 record heap and its collector", cited as document 01, decides what each call does.
//!
//! # The whole case of document 01
//!
//! Four records of one pointer and 600 values fill a segment of 16 KiB. A pointer keeps one of them, two roots keep two; the fourth becomes
//! free.
//!
//! ```
//! use borvukhai::{Heap, MutatorId, Root, SegmentSize, Segments, Shape, Step};
//!
//! const SEGMENTS: Segments = Segments::new(2).unwrap();
//! const SIZE: SegmentSize = SegmentSize::Kib16;
//! const ID: MutatorId = MutatorId::new(0).unwrap();
//! const SHAPE: Shape = Shape::new(1, 600);
//!
//! let mut heap = Heap::open(SEGMENTS, SIZE, [0; SEGMENTS.length(SIZE)])?;
//! let mut mutator = heap.attach(ID)?;
//! for root in [Root::R0, Root::R1, Root::R2, Root::R3] {
//!     mutator.make(root, SHAPE)?;
//! }
//! mutator.store(Root::R0, 0, Root::R1)?;
//! mutator.put(Root::R1, 0, 77)?;
//! mutator.clear(Root::R1)?;
//! mutator.clear(Root::R2)?;
//!
//! heap.start()?;
//! assert_eq!(heap.step()?, Step::Waiting(1));
//! heap.mutator(ID).check()?;
//! assert_eq!(heap.step()?, Step::Moved);
//! heap.mutator(ID).check()?;
//! assert_eq!(heap.step()?, Step::Moved);
//! for _ in 0..3 {
//!     assert_eq!(heap.step()?, Step::Traced);
//! }
//! assert_eq!(heap.step()?, Step::Moved);
//! assert_eq!(heap.step()?, Step::Swept { segment: 0, freed: 1 });
//! assert_eq!(heap.step()?, Step::Done);
//!
//! let mut mutator = heap.mutator(ID);
//! mutator.load(Root::R1, Root::R0, 0)?;
//! assert_eq!(mutator.get(Root::R1, 0)?, 77);
//! # Ok::<(), borvukhai::Refusal>(())
//! ```
//!
//! # Segments of 16 or 32 KiB
//!
//! A heap has 1 to 256 [`Segments`], all of one [`SegmentSize`]; the lengths of the slices follow from both. At 32 KiB every class has
//! twice the blocks: a segment of class 14 has two, and is held or part like any other.
//!
//! # One call at a time
//!
//! No call that changes the heap may run while another call over the same memory runs; the looks may run beside each other. Calls that
//! change the heap take `&mut Heap`, and a [`Mutator`] borrows the heap as long as it lives, so the compiler refuses what could overlap:
//!
//! ```compile_fail,E0499
//! # use borvukhai::{Heap, MutatorId, Root, SegmentSize, Segments};
//! # let mut heap = Heap::new(Segments::MIN, SegmentSize::Kib16);
//! # let (a, b) = (MutatorId::new(0).unwrap(), MutatorId::new(1).unwrap());
//! let mut first = heap.mutator(a);
//! let mut second = heap.mutator(b); // a second exclusive borrow
//! first.clear(Root::R0);
//! ```
//!
//! Mutators take turns instead, each by a handle that lives as long as its turn. Threads share a heap through a mutex, and a program with
//! interrupts through its critical section.
//!
//! ```
//! use std::sync::Mutex;
//! use std::thread;
//! use borvukhai::{Heap, MutatorId, Root, SegmentSize, Segments, Shape, Step};
//!
//! let heap = Mutex::new(Heap::new(Segments::new(2).unwrap(), SegmentSize::Kib32));
//! thread::scope(|scope| {
//!     for id in MutatorId::all().take(2) {
//!         let heap = &heap;
//!         scope.spawn(move || {
//!             heap.lock().unwrap().attach(id).unwrap();
//!             for n in 0..100 {
//!                 let mut heap = heap.lock().unwrap();
//!                 let mut mutator = heap.mutator(id);
//!                 mutator.check().unwrap();
//!                 mutator.make(Root::R0, Shape::new(0, 1)).unwrap();
//!                 mutator.put(Root::R0, 0, n).unwrap();
//!             }
//!             heap.lock().unwrap().mutator(id).leave().unwrap();
//!         });
//!     }
//! });
//! let mut heap = heap.into_inner().unwrap();
//! assert_eq!(heap.step(), Ok(Step::Idle));
//! ```
//!
//! # Pacing the collector
//!
//! [`Heap::start`] when segments have become full or part, then a few [`Heap::step`]s between the mutators' calls until one answers
//! [`Step::Done`]. A cycle needs the mutators: each one that is inside must [`check`](Mutator::check) now and then, or
//! [`leave`](Mutator::leave) when it will be away for long. [`Heap::finish_cycle`] runs a cycle to its end in one call, which is the
//! pause that steps avoid. A [`Pacer`] does all of it after each make: it decides when a cycle begins, and takes a bounded number of
//! steps (`examples/paced.rs`). [`cycle_end`] says how many steps a cycle can take, for a bar that shows its progress.
//!
//! # Layers and features
//!
//! [`Heap`] and [`Mutator`] take typed numbers: an opened heap's calls are not refused 2 or 6, and 1 only where the output or scratch of
//! a look has another length (or the memory does not lend the same words each time). [`raw`] has every call over slices and plain numbers, with every refusal. The crate is `no_std`. The
//! feature `alloc`, on by default, adds `Heap::new`, which owns its memory, and `Heap::sheet_string`, which answers the sheet as a text.
//! The feature `port` says that the library linked is one of bindings/port/build, whose wrappers widen the lengths: it is asked for
//! where usize has 32 bits (docs/PORTS.md).
//!
//! An answer that is none of document 01's cannot come from the library; that is proved of it. Were one to come, from another
//! library, this crate would take it for [`Refusal::Torn`].

#![no_std]

// The library's own lengths have 64 bits: over the plain library a 32-bit caller would silently pass its arguments wrongly.
#[cfg(all(any(target_pointer_width = "16", target_pointer_width = "32"), not(feature = "port")))]
compile_error!("usize has not 64 bits: link the library that bindings/port/build makes for this target, with the feature \"port\"");

#[cfg(feature = "alloc")]
extern crate alloc;

mod answer;
mod collector;
mod heap;
mod looks;
mod mutator;
mod numbers;
mod pacer;
pub mod raw;
mod refusal;
mod segments;
mod sys;

pub use collector::{Step, cycle_end};
pub use heap::Heap;
pub use looks::{Phase, SegmentRecord, SegmentState, States};
pub use mutator::Mutator;
pub use numbers::{MutatorId, Root, Shape};
pub use pacer::Pacer;
pub use refusal::{NoRefusal, Refusal, Refused, Result};
pub use segments::{SegmentSize, Segments};

/// The number of the layout of the lent words, as include/borvukhai.h has it (`BORVUKHAI_LAYOUT`). A landing that moves a word raises it:
/// keep it beside memory that outlives a restart, and take up only memory of the same number.
pub const LAYOUT: u32 = 4;

/// Whether the library that is linked has the layout of this crate: to be asked once, before the first call.
pub fn check_layout() -> bool {
    raw::layout() == LAYOUT
}

/// The Rust example of bindings/README.md, so that it is run.
#[cfg(doctest)]
#[doc = include_str!("../../README.md")]
struct Readme;
