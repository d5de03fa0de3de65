//! A heap kept in room by pacing: ten million calls of a mutator over 8 segments of 16 KiB, records of three classes in a
//! steady mix, half of the heap alive, and never a make refused NoRoom. After each make the collector does at most
//! STEPS steps ([`Pacer`]).
//!
//! The live records hang on two directories of directories; each turn replaces one of them at random. `paced late` is
//! the trap: a cycle begins when a make is refused, and runs to its end while the mutator waits.

use std::time::Instant;

use borvukhai::{Heap, MutatorId, Pacer, Refusal, Result, Root, SegmentRecord, SegmentSize, Segments, Shape};

pub(crate) const SEGMENTS: Segments = Segments::new(8).unwrap();
pub(crate) const STEPS: u32 = 128;
const OPERATIONS: u32 = 10_000_000;
const ROUNDS: u32 = 3;

const ID: MutatorId = MutatorId::new(0).unwrap();
const TOPS: [Root; 2] = [Root::R0, Root::R1];
const LEAF: Root = Root::R2;
const OLD: Root = Root::R3;
const NEW: Root = Root::R4;
const LEAVES: usize = 18;
const WIDTH: usize = 31;
const LIVE: usize = TOPS.len() * LEAVES * WIDTH;
const NODE: Shape = Shape::new(WIDTH as u32, 0);

/// Of seven records four have a pointer and 6 values, two 14 values, one 30: classes 5, 6 and 7.
fn shape_of(slot: usize) -> Shape {
    Shape::new(1, [6, 6, 6, 6, 14, 14, 30][slot % 7])
}

/// Lengths of calls or shares in nanoseconds. Every round makes the same calls, so a length is the least that it took.
#[derive(Default)]
pub(crate) struct Lengths {
    least: Vec<u32>,
    count: usize,
}

impl Lengths {
    fn note(&mut self, begun: Instant) {
        let length = begun.elapsed().as_nanos() as u32;
        match self.least.get_mut(self.count) {
            Some(least) => *least = length.min(*least),
            None => self.least.push(length),
        }
        self.count += 1;
    }

    fn longest(&self) -> u32 {
        self.least.iter().copied().max().unwrap_or(0)
    }
}

/// One playing of the list, from an opening.
pub(crate) struct Play {
    heap: Heap<Box<[u32]>>,
    /// None for the trap.
    pacer: Option<Pacer<[u32; SEGMENTS.states_length()]>>,
    expected: Vec<u32>,
    seed: u32,
    pub(crate) operations: u32,
    pub(crate) no_room: u32,
    pub(crate) cycles: u32,
    pub(crate) calls: Lengths,
    pub(crate) shares: Lengths,
}

impl Play {
    /// An empty heap of segments of this size, and a pacer of so many steps, or none.
    pub(crate) fn new(size: SegmentSize, steps: Option<u32>, seed: u32) -> Result<Play> {
        let mut heap = Heap::open(SEGMENTS, size, vec![0; SEGMENTS.length(size)].into_boxed_slice())?;
        heap.attach(ID)?;
        let pacer = steps.map(|steps| Pacer::new(&heap, [0; SEGMENTS.states_length()], steps, 1)).transpose()?;
        let (calls, shares) = Default::default();
        Ok(Play { heap, pacer, expected: vec![0; LIVE], seed, operations: 0, no_room: 0, cycles: 0, calls, shares })
    }

    /// A call of the mutator, timed and counted.
    fn call<T>(&mut self, call: impl FnOnce(&mut borvukhai::Mutator<'_>) -> Result<T>) -> Result<T> {
        let begun = Instant::now();
        let answer = call(&mut self.heap.mutator(ID));
        self.calls.note(begun);
        self.operations += 1;
        answer
    }

    /// A make, and the collector's share. Without a pacer, a make that is refused waits for a whole cycle.
    fn make(&mut self, to: Root, shape: Shape) -> Result<()> {
        let made = self.call(|mutator| mutator.make(to, shape));
        self.no_room += u32::from(made == Err(Refusal::NoRoom));
        let begun = Instant::now();
        match &mut self.pacer {
            Some(pacer) => {
                let ran = pacer.running();
                made.and_then(|()| pacer.made(&mut self.heap, shape))?;
                self.cycles += u32::from(ran && !pacer.running());
            }
            None if made == Err(Refusal::NoRoom) => {
                self.heap.start()?;
                self.heap.finish_cycle()?;
                self.cycles += 1;
                self.heap.mutator(ID).make(to, shape)?;
            }
            None => made?,
        }
        self.shares.note(begun);
        Ok(())
    }

    /// A new record in the leaf's slot, with its number as its value 0.
    fn renew(&mut self, slot: usize) -> Result<()> {
        let value = self.operations;
        self.expected[slot] = value;
        self.make(NEW, shape_of(slot))?;
        self.call(|mutator| mutator.put(NEW, 0, value))?;
        self.call(|mutator| mutator.store(LEAF, (slot % WIDTH) as u32, NEW))?;
        self.call(|mutator| mutator.check())
    }

    /// The directories, and every record once.
    fn build(&mut self) -> Result<()> {
        for top in TOPS {
            self.make(top, NODE)?;
        }
        for slot in 0..LIVE {
            if slot % WIDTH == 0 {
                self.make(LEAF, NODE)?;
                let (top, field) = place(slot);
                self.call(|mutator| mutator.store(top, field, LEAF))?;
            }
            self.renew(slot)?;
        }
        Ok(())
    }

    /// One record is found, seen to be the one that was put there, and replaced.
    fn turn(&mut self) -> Result<()> {
        let slot = self.random() as usize % LIVE;
        let (top, field) = place(slot);
        self.call(|mutator| mutator.load(LEAF, top, field))?;
        self.call(|mutator| mutator.load(OLD, LEAF, (slot % WIDTH) as u32))?;
        assert_eq!(self.call(|mutator| mutator.get(OLD, 0))?, self.expected[slot]);
        self.renew(slot)
    }

    fn random(&mut self) -> u32 {
        self.seed ^= self.seed << 13;
        self.seed ^= self.seed >> 17;
        self.seed ^= self.seed << 5;
        self.seed
    }

    /// So many operations.
    pub(crate) fn run(&mut self, operations: u32) -> Result<()> {
        self.build()?;
        while self.operations < operations {
            self.turn()?;
        }
        Ok(())
    }
}

/// The load of a heap: the blocks that sweeps kept and those handed out since, of all segments.
fn load_of(heap: &Heap<Box<[u32]>>) -> Result<(u32, u32)> {
    let mut output = [0; SEGMENTS.states_length()];
    let add = |(kept, handed_out), of: SegmentRecord| (kept + of.kept, handed_out + of.handed_out);
    Ok(heap.states(&mut output)?.fold((0, 0), add))
}

/// Where a slot's leaf hangs.
fn place(slot: usize) -> (Root, u32) {
    let leaf = slot / WIDTH;
    (TOPS[leaf / LEAVES], (leaf % LEAVES) as u32)
}

fn main() -> Result<()> {
    let steps = if std::env::args().any(|word| word == "late") { None } else { Some(STEPS) };
    let (mut calls, mut shares) = <(Lengths, Lengths)>::default();
    for round in 1..=ROUNDS {
        let mut play = Play { calls, shares, ..Play::new(SegmentSize::Kib16, steps, 2_463_534_242)? };
        play.run(OPERATIONS)?;
        if round == ROUNDS {
            println!("{} operations, {} cycles; no room: {} times", play.operations, play.cycles, play.no_room);
            let (kept, handed_out) = load_of(&play.heap)?;
            println!("{} blocks in use: {kept} kept by sweeps, {handed_out} handed out since", kept + handed_out);
        }
        assert!(steps.is_none() || play.no_room == 0);
        (calls, shares) = (Lengths { count: 0, ..play.calls }, Lengths { count: 0, ..play.shares });
    }
    if let Some(steps) = steps {
        println!("at most {steps} steps between two makes");
    }
    println!("longest call of the mutator: {} ns, longest share of the collector: {} ns", calls.longest(), shares.longest());
    Ok(())
}
