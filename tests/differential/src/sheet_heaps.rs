//! Request No. 10: heaps made for their sheets, and what each line must be, by the calls alone. A segment of each class is filled block by block,
//! so that every number of blocks in use is shown; and heaps of the counts at which an empty line comes, or is about to, go through a cycle
//! with segments in every state.

use crate::calls::*;
use crate::coverage::Coverage;
use crate::layout::{self, Geometry, HIGHEST, LOWEST};
use crate::list::Pair;
use crate::sheet;

/// A segment as the calls leave it: its state, its class and its blocks in use.
type Known = [u32; 3];
const FREE: Known = [0; 3];

pub struct Heaps<'a> {
    g: Geometry,
    pair: &'a mut Pair,
    coverage: &'a mut Coverage,
    looks: u32,
}

impl<'a> Heaps<'a> {
    pub fn new(g: Geometry, pair: &'a mut Pair, coverage: &'a mut Coverage) -> Heaps<'a> {
        Heaps { g, pair, coverage, looks: 0 }
    }

    /// Plays a call on both and compares the answers.
    fn play(&mut self, kind: Kind, args: [u32; 4]) -> Result<u64, String> {
        crate::watchdog::beat();
        let call = Call::new(kind, self.g, args);
        let (first, second) = (self.pair.verified.play(&call), self.pair.independent.play(&call));
        self.coverage.count(kind, first);
        match first == second {
            true => Ok(first),
            false => Err(format!("{call}: verified {}, independent {}", answer_words(kind, first), answer_words(kind, second))),
        }
    }

    /// A call that is not refused.
    fn perform(&mut self, kind: Kind, args: [u32; 4]) -> Result<u64, String> {
        match self.play(kind, args)? {
            answer if refusal(answer) == 0 => Ok(answer),
            answer => Err(format!("{:?}{args:?}: {}", kind, answer_words(kind, answer))),
        }
    }

    /// An opening over words of any kind, and all mutators.
    fn open(&mut self) -> Result<(), String> {
        let Pair { verified, independent } = &mut *self.pair;
        verified.memory.words_mut().fill(0x5555_5555);
        independent.memory.words_mut().fill(0x5555_5555);
        self.perform(Open, [0; 4])?;
        self.shows(&vec![FREE; self.g.n()])?;
        (0..32).try_for_each(|m| self.perform(Attach, [m, 0, 0, 0]).map(|_| ()))
    }

    /// A record of the class, in a root of the mutator.
    fn make(&mut self, m: u32, root: u32, class: u32) -> Result<(), String> {
        self.perform(Make, [m, root, 0, (1 << class) / 4 - 1]).map(|_| ())
    }

    /// The sheets are equal, and what a look at the states and places and bits tell. Every eighth is watched to change no word.
    fn look(&mut self) -> Result<(), String> {
        let Pair { verified, independent } = &mut *self.pair;
        verified.sheet.bytes_mut().fill(b'\n');
        independent.sheet.bytes_mut().fill(b'.');
        let before = self.looks.is_multiple_of(8).then(|| verified.memory.words().to_vec());
        self.looks += 1;
        self.perform(States, [0; 4])?;
        self.perform(Sheet, [0; 4])?;
        if before.is_some_and(|before| self.pair.verified.memory.words() != before) {
            return Err("a sheet changed a word of the memory".into());
        }
        self.pair.same_sheets(self.g, self.pair.verified.output.words(), false, &mut self.coverage.sheets)
    }

    /// The sheet is that of these segments.
    fn shows(&mut self, known: &[Known]) -> Result<(), String> {
        self.look()?;
        let records: Vec<u32> = known.iter().flat_map(|[state, class, _]| [*state, *class, 0, 0, 0, 0]).collect();
        let due = sheet::read(self.g, &records, |number| known[number as usize][2]);
        sheet::difference(self.pair.verified.sheet.bytes(), &due, "by the calls").map_or(Ok(()), Err)
    }

    /// A class of the one segment, block by block.
    fn fill(&mut self, class: u32) -> Result<(), String> {
        self.open()?;
        let blocks = self.g.blocks(class);
        for made in 1..=blocks {
            self.make(0, 0, class)?;
            self.shows(&[[if made == blocks { 3 } else { 2 }, class, made]])?;
        }
        Ok(())
    }

    /// Every class.
    pub fn fill_all(&mut self) -> Result<(), String> {
        (LOWEST..=HIGHEST).try_for_each(|class| self.fill(class))
    }

    /// Segments in every state, through a cycle.
    pub fn go_round(&mut self) -> Result<(), String> {
        self.open()?;
        let mut known = vec![FREE; self.g.n()];
        for segment in 0..self.g.segments {
            known[segment as usize] = self.take(segment)?;
            if segment % 16 == 15 {
                self.shows(&known)?;
            }
        }
        self.shows(&known)?;
        self.detach_some(&mut known)?;
        self.perform(Start, [0; 4])?;
        known.iter_mut().filter(|[state, ..]| matches!(state, 1 | 3)).for_each(|[state, ..]| *state = 4);
        self.shows(&known)?;
        self.trace()?;
        self.step_until(DONE, self.g.segments)?;
        self.make_more()
    }

    /// The next free segment for a mutator that holds none of the class, as no segment is part: some records, and it is full or held.
    fn take(&mut self, segment: u32) -> Result<Known, String> {
        let (m, class) = (segment % 32, class_for(segment));
        let blocks = self.g.blocks(class);
        let makes = blocks.min(1 + 7 * segment % 40);
        (0..makes).try_for_each(|made| self.make(m, made % 16, class))?;
        Ok([if makes == blocks { 3 } else { 2 }, class, makes])
    }

    /// Every third mutator goes: what it held is part.
    fn detach_some(&mut self, known: &mut [Known]) -> Result<(), String> {
        for m in (0..32).step_by(3) {
            self.perform(Detach, [m, 0, 0, 0])?;
            let held = known.iter_mut().skip(m as usize).step_by(32).filter(|[state, ..]| *state == 2);
            held.for_each(|[state, ..]| *state = 1);
            if m % 9 == 0 {
                self.shows(known)?;
            }
        }
        Ok(())
    }

    /// Both handshakes, and the marking.
    fn trace(&mut self) -> Result<(), String> {
        for _ in 0..2 {
            for m in (0..32).filter(|m| m % 3 != 0) {
                self.perform(Check, [m, 0, 0, 0])?;
            }
            self.perform(Step, [0; 4])?;
        }
        self.step_until(MOVED, 32 * 16)
    }

    /// Steps until one answers so, with sheets between; at most so many before it.
    fn step_until(&mut self, last: u32, most: u32) -> Result<(), String> {
        for step in 0..=most {
            let kind = step_kind(self.perform(Step, [0; 4])?);
            if kind == last {
                return self.look();
            }
            if step % 16 == 0 {
                self.look()?;
            }
        }
        Err(format!("{most} steps, and none answered {}", STEP_KINDS[last as usize]))
    }

    /// Records beside those that were kept, as long as there is room.
    fn make_more(&mut self) -> Result<(), String> {
        for segment in (0..self.g.segments).filter(|segment| segment % 32 % 3 != 0) {
            self.play(Make, [segment % 32, 15, 0, (1 << class_for(segment)) / 4 - 1])?;
        }
        self.look()
    }
}

/// The class of a segment's records: another one for each of those that a mutator takes.
fn class_for(segment: u32) -> u32 {
    LOWEST + (segment % 32 + segment / 32) % layout::CLASSES as u32
}
