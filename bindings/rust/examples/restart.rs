//! Memory that outlives the program: saved in the middle of a cycle, loaded by another run, examined, and used on.
//! `restart save FILE` fills a heap and saves it while a cycle marks; `restart load FILE` takes it up.
//!
//! Nothing is kept beside the lent words: which events the list has is read from the list. The file is
//! examples/restart.c's: the layout's number, the count of segments, their size in KiB, the words. One of another layout,
//! count or size, or one that fails the examination, is refused.

use std::error::Error;
use std::{env, fs};

use borvukhai::{Heap, LAYOUT, MutatorId, Pacer, Phase, Refusal, Root, SegmentSize, Segments, Shape};

const SEGMENTS: Segments = Segments::new(4).unwrap();
const SIZE: SegmentSize = SegmentSize::Kib16;
const ID: MutatorId = MutatorId::new(0).unwrap();
const FIRST: Root = Root::R0;
const LAST: Root = Root::R1;
const NEW: Root = Root::R2;
const WALK: Root = Root::R3;
const EVENT: Shape = Shape::new(1, 1);
const LIST: u32 = 1500;
const TURNS: u32 = 200_000;

type Answer<T> = Result<T, Box<dyn Error>>;

struct Program {
    heap: Heap<Box<[u32]>>,
    pacer: Pacer<[u32; SEGMENTS.states_length()]>,
}

impl Program {
    /// Over a heap that was opened or loaded.
    fn over(heap: Heap<Box<[u32]>>) -> Answer<Program> {
        let pacer = Pacer::new(&heap, [0; SEGMENTS.states_length()], 8, 1)?;
        Ok(Program { heap, pacer })
    }

    fn filled() -> Answer<Program> {
        let memory = vec![0; SEGMENTS.length(SIZE)].into_boxed_slice();
        let mut program = Program::over(Heap::open(SEGMENTS, SIZE, memory).map_err(Refusal::from)?)?;
        program.heap.attach(ID)?;
        for number in 0..LIST {
            program.append(number, number == 0)?;
        }
        Ok(program)
    }

    fn append(&mut self, number: u32, first: bool) -> Answer<()> {
        self.pacer.make(&mut self.heap, ID, NEW, EVENT)?;
        let mut mutator = self.heap.mutator(ID);
        mutator.put(NEW, 0, number)?;
        if first {
            mutator.copy(FIRST, NEW)?
        } else {
            mutator.store(LAST, 0, NEW)?
        }
        Ok(mutator.copy(LAST, NEW)?)
    }

    /// Turns, each an event more and one less, until so many were done and the phase is this one.
    fn run_to(&mut self, turns: u32, phase: Phase) -> Answer<()> {
        let mut done = 0;
        while done < turns || self.heap.phase()? != phase {
            let last = self.heap.mutator(ID).get(LAST, 0)?;
            self.append(last + 1, false)?;
            self.heap.mutator(ID).load(FIRST, FIRST, 0)?;
            done += 1;
        }
        Ok(())
    }

    /// The list has LIST events, each one more than the one before.
    fn walk(&mut self) -> Answer<()> {
        let mut mutator = self.heap.mutator(ID);
        let first = mutator.get(FIRST, 0)?;
        mutator.copy(WALK, FIRST)?;
        for number in first..first + LIST {
            assert_eq!(mutator.get(WALK, 0)?, number);
            mutator.load(WALK, WALK, 0)?;
        }
        assert_eq!(mutator.shape(WALK), Err(Refusal::Dark), "the list ends");
        println!("{LIST} events, up to number {}", first + LIST - 1);
        Ok(())
    }
}

fn save(heap: &Heap<Box<[u32]>>, path: &str) -> Answer<()> {
    let words = [LAYOUT, SEGMENTS.count(), SIZE.kib()];
    let bytes: Vec<u8> = words.iter().chain(heap.memory()).flat_map(|word| word.to_ne_bytes()).collect();
    Ok(fs::write(path, bytes)?)
}

fn load(path: &str) -> Answer<Heap<Box<[u32]>>> {
    let bytes = fs::read(path)?;
    let words: Vec<u32> = bytes.chunks_exact(4).map(|word| u32::from_ne_bytes([word[0], word[1], word[2], word[3]])).collect();
    match words.split_at_checked(3) {
        Some(([LAYOUT, count, kib], memory)) if [*count, *kib] == [SEGMENTS.count(), SIZE.kib()] => {
            let mut scratch = vec![0; SEGMENTS.scratch_length(SIZE)];
            Ok(Heap::adopt(SEGMENTS, SIZE, memory.into(), &mut scratch).map_err(Refusal::from)?)
        }
        _ => Err("no file of this layout, count and size: open a heap anew".into()),
    }
}

fn main() -> Answer<()> {
    let words: Vec<String> = env::args().skip(1).collect();
    match words.iter().map(String::as_str).collect::<Vec<_>>()[..] {
        ["save", path] => {
            let mut program = Program::filled()?;
            program.run_to(TURNS, Phase::Mark)?;
            program.walk()?;
            save(&program.heap, path)
        }
        ["load", path] => {
            let mut program = Program::over(load(path)?)?;
            assert_eq!(program.heap.phase(), Ok(Phase::Mark));
            program.walk()?;
            program.run_to(TURNS, Phase::Idle)?;
            program.walk()
        }
        _ => Err("restart save FILE, then restart load FILE".into()),
    }
}
