//! What a list compares beside answers: phase, states, counts, sheets, the trace stack, the examination, and words that may not change.

use crate::calls::*;
use crate::coverage::Situation;
use crate::layout;
use crate::list::List;

impl List<'_> {
    /// Whether the call is to be checked to change no word, in which case the memory is remembered. The more segments, the rarer.
    pub fn watch(&mut self, call: &Call, expected: Option<u64>) -> bool {
        let refused = expected.is_some_and(|answer| refusal(answer) != 0);
        let likely = refused || call.kind.only_reads() || matches!(call.kind, Start | Attach | Spawn | Detach);
        let rarity = if likely { 4 } else { 32 };
        let watched = (likely || call.kind == Make) && self.rng.below(rarity * self.g.segments) == 0;
        if watched {
            self.remember();
        }
        watched
    }

    pub fn remember(&mut self) {
        self.shadow.clear();
        self.shadow.extend_from_slice(self.pair.verified.memory.words());
    }

    pub fn unchanged(&mut self, call: &Call) -> Result<(), String> {
        self.coverage.watched += 1;
        if self.pair.verified.memory.words() == self.shadow {
            return Ok(());
        }
        let words = self.pair.verified.memory.words().iter().zip(&self.shadow);
        let at = words.take_while(|(now, then)| now == then).count();
        Err(format!("{call}: word {at} of the memory changed"))
    }

    /// The phase is compared and is the one that document 01 says.
    pub fn moved_to(&mut self, phase: u32) -> Result<(), String> {
        self.compare_phase()?;
        match self.phase == phase {
            true => Ok(()),
            false => Err(format!("phase {}, expected {phase}", self.phase)),
        }
    }

    pub fn compare_phase(&mut self) -> Result<(), String> {
        let call = self.right(Phase);
        let first = self.pair.verified.play(&call);
        let second = if self.alone { first } else { self.pair.independent.play(&call) };
        if first != second || refusal(first) != 0 {
            return Err(format!("phase: verified {first:#x}, independent {second:#x}"));
        }
        self.phase = result(first);
        Ok(())
    }

    pub fn compare_states(&mut self) -> Result<(), String> {
        let call = self.right(States);
        let first = self.pair.verified.play(&call);
        let answers = (first, if self.alone { first } else { self.pair.independent.play(&call) });
        if answers != (0, 0) {
            return Err(format!("states: answers {answers:?}"));
        }
        self.same_states()
    }

    /// The two outputs are equal; they become the states known.
    pub fn same_states(&mut self) -> Result<(), String> {
        self.coverage.compared_states += 1;
        let first = self.pair.verified.output.words();
        let second = if self.alone { first } else { self.pair.independent.output.words() };
        if first != second {
            let at = first.iter().zip(second).take_while(|(a, b)| a == b).count() / layout::RECORD_WORDS;
            let [first, second] = [first, second].map(|states| layout::each_segment(states).nth(at).unwrap_or_default());
            return Err(format!("state of segment {at}: verified {first:?}, independent {second:?}"));
        }
        if let Some(at) = layout::each_segment(first).position(|state| layout::shared_of_one_block(self.g, state)) {
            return Err(format!("segment {at} has one block and is part or held"));
        }
        if layout::each_segment(first).any(|state| state[..2] == [1, layout::HIGHEST]) {
            self.coverage.met(Situation::LargestClassPart);
        }
        self.same_counts(first)?;
        self.nothing.looked(&self.states, first)?;
        self.states.copy_from_slice(first);
        Ok(())
    }

    /// Whether the sheets are to be compared now: around a start, a detach and a sweep at up to 4 segments always, else now and then; the more
    /// segments, the rarer.
    pub fn sheets_due(&mut self, around: bool) -> bool {
        let n = self.g.segments;
        match around {
            true => n <= 4 || self.rng.below(n) == 0,
            false => self.rng.below(16 * n) == 0,
        }
    }

    /// The sheets over output of any content are compared; by samples, they change no word of the memory.
    pub fn compare_sheets(&mut self) -> Result<(), String> {
        let (call, byte) = (self.right(Sheet), self.rng.word() as u8);
        let watched = self.rng.below(8 * self.g.segments) == 0;
        if watched {
            self.remember();
        }
        self.pair.verified.sheet.bytes_mut().fill(byte);
        self.pair.independent.sheet.bytes_mut().fill(!byte);
        let first = self.pair.verified.play(&call);
        let answers = (first, if self.alone { first } else { self.pair.independent.play(&call) });
        if answers != (0, 0) {
            return Err(format!("sheet: answers {answers:?}"));
        }
        if watched {
            self.unchanged(&call)?;
        }
        self.same_sheets()
    }

    /// The two sheets are equal, and what a look at the states says.
    pub fn same_sheets(&mut self) -> Result<(), String> {
        self.compare_states()?;
        self.pair.same_sheets(self.g, &self.states, self.alone, &mut self.coverage.sheets)
    }

    /// The counts of each segment are those of the calls, and all together they are the blocks handed out less those freed.
    fn same_counts(&self, states: &[u32]) -> Result<(), String> {
        let mut sum = 0;
        for (segment, record) in layout::each_segment(states).enumerate() {
            let (counts, due) = (layout::counts_of(record), self.blocks.counts(segment));
            if counts != due {
                return Err(format!("segment {segment} is {record:?}, and its counts are {due:?} by the calls"));
            }
            sum += u64::from(counts[0]) + u64::from(counts[1]);
        }
        self.totals.agree(sum, "the counts")
    }

    /// The blocks in use by the calls are those handed out less those freed; by samples, so are those that places and bits tell.
    pub fn compare_totals(&mut self) -> Result<(), String> {
        self.totals.agree(self.blocks.in_use(), "the calls")?;
        match self.rng.below(8 * self.g.segments) {
            0 => self.count_blocks(),
            _ => Ok(()),
        }
    }

    fn count_blocks(&mut self) -> Result<(), String> {
        self.coverage.counted += 1;
        let in_use = layout::blocks_in_use(self.pair.verified.memory.words(), self.g);
        self.totals.agree(in_use, "places and bits")
    }

    /// The steps that the cycle can still take are fewer by those since the last time at least.
    pub fn take_measure(&mut self) -> Result<(), String> {
        let compared = self.measure.take(self.pair.verified.memory.words(), self.g)?;
        self.coverage.bound.measured += u64::from(compared);
        Ok(())
    }

    /// The verified library's trace stack has as many entries as document 01 says, and the same last one.
    pub fn compare_top(&mut self) -> Result<(), String> {
        let count = layout::trace_count(self.pair.verified.memory.words());
        if count != self.cycle.stack.len() {
            return Err(format!("the trace stack has {count} entries, by document 01 {}", self.cycle.stack.len()));
        }
        match count {
            0 => Ok(()),
            _ => self.compare_entry(count - 1),
        }
    }

    fn compare_entry(&self, number: usize) -> Result<(), String> {
        let memory = self.pair.verified.memory.words();
        let found = self.blocks.named(memory, layout::trace_entry(memory, self.g, number));
        match found == Some(self.cycle.stack[number]) {
            true => Ok(()),
            false => Err(format!("entry {number} of the trace stack is record {found:?}, by document 01 {}", self.cycle.stack[number])),
        }
    }

    fn compare_stack(&mut self) -> Result<(), String> {
        self.coverage.compared_stacks += 1;
        if 2 * self.cycle.stack.len() > self.g.most_blocks() as usize * self.g.n() {
            self.coverage.met(Situation::TraceStackOverHalf);
        }
        self.coverage.longest_stack = self.coverage.longest_stack.max(self.cycle.stack.len());
        (0..self.cycle.stack.len()).try_for_each(|number| self.compare_entry(number))
    }

    /// The examination says yes, leaves the memory as it was and the scratch all zero; the bitmaps are trees; guard words stand.
    pub fn examine(&mut self) -> Result<(), String> {
        let call = self.right(Examine);
        self.unexamined = 0;
        self.compare_stack()?;
        self.count_blocks()?;
        self.take_measure()?;
        if self.rng.chance(64) {
            let word = self.rng.word();
            self.pair.verified.scratch.words_mut().fill(word);
            self.pair.independent.scratch.words_mut().fill(word);
        }
        self.remember();
        self.coverage.examined += 1;
        let answer = self.both(&call)?;
        self.unchanged(&call)?;
        if answer != 1 << 32 {
            return Err(format!("examine: {}", answer_words(Examine, answer)));
        }
        if self.pair.verified.scratch.words().iter().any(|&word| word != 0) {
            return Err("examine left a word of the scratch that is not 0".into());
        }
        if !layout::all_trees(self.pair.verified.memory.words(), self.g) {
            return Err("a bit above level 0 of a bitmap, or past the end of a level, is not what it is to be".into());
        }
        match self.pair.verified.guards_hold() && self.pair.independent.guards_hold() {
            true => Ok(()),
            false => Err("a guard word changed".into()),
        }
    }
}
