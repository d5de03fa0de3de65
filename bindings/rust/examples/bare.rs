//! A program without an allocator: static memory, a main loop, and an interrupt that leaves its wish to that loop. It
//! keeps the last EVENTS events as a list of records; a pacer takes two steps after each event.
//!
//! Only core and this crate are used. A board has its own start and panic handler; here std lends them.
#![no_std]

extern crate std as start;

use core::sync::atomic::{AtomicU32, Ordering};

use borvukhai::{Heap, MutatorId, Pacer, Refusal, Result, Root, SegmentSize, Segments, Shape};

const SEGMENTS: Segments = Segments::new(2).unwrap();
const SIZE: SegmentSize = SegmentSize::Kib16;
const WORDS: usize = SEGMENTS.length(SIZE);
const LOOP: MutatorId = MutatorId::new(0).unwrap();
const FIRST: Root = Root::R0;
const LAST: Root = Root::R1;
const NEW: Root = Root::R2;
const EVENT: Shape = Shape::new(1, 1);
const EVENTS: u32 = 16;
const TURNS: u32 = 100_000;

/// The heap's memory, in the program's image.
static mut MEMORY: [u32; WORDS] = [0; WORDS];

/// What the interrupt leaves: it makes no call, as one may be running.
static PRESSED: AtomicU32 = AtomicU32::new(0);

fn interrupt() {
    PRESSED.fetch_add(1, Ordering::Relaxed);
}

type Board = Heap<&'static mut [u32; WORDS]>;
type Pace = Pacer<[u32; SEGMENTS.states_length()]>;

/// A new event at the list's end, and the oldest one gone where there are many.
fn turn(heap: &mut Board, pacer: &mut Pace, number: u32) -> Result<()> {
    pacer.make(heap, LOOP, NEW, EVENT)?;
    let mut mutator = heap.mutator(LOOP);
    mutator.put(NEW, 0, number)?;
    match number {
        1 => mutator.copy(FIRST, NEW)?,
        _ => mutator.store(LAST, 0, NEW)?,
    }
    mutator.copy(LAST, NEW)?;
    if number > EVENTS {
        let oldest = mutator.get(FIRST, 0)?;
        assert_eq!(oldest, number - EVENTS);
        mutator.load(FIRST, FIRST, 0)?;
    }
    Ok(())
}

fn main() -> core::result::Result<(), Refusal> {
    // SAFETY: the only use of MEMORY, once.
    #[allow(static_mut_refs)]
    let memory = unsafe { &mut MEMORY };
    let mut heap: Board = Heap::open(SEGMENTS, SIZE, memory)?;
    heap.attach(LOOP)?;
    let mut pacer = Pacer::new(&heap, [0; SEGMENTS.states_length()], 2, 1)?;
    let mut seen = 0;
    while seen < TURNS {
        interrupt(); // on a board the hardware calls it, at any time
        while seen != PRESSED.load(Ordering::Relaxed) {
            seen += 1;
            turn(&mut heap, &mut pacer, seen)?;
        }
    }
    Ok(())
}
