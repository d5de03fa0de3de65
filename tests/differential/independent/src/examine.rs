//! The examination: does the memory hold what an opening establishes and every call keeps? It answers over memory of any content.
//!
//! Beside the layout's own invariants it checks the collector's promise: in mark, each reached record of a condemned segment is marked
//! or is reached from the trace stack over records not yet marked; in sweep, it is marked.

use crate::answers::{refuse, Answer, Refusal, IDLE, MARK, SWEEP, SYNC1, SYNC2};
use crate::bitmap::{summarize, Tree};
use crate::classes::{self, class_of};
use crate::layout::{
    held_of, part_top, scratch_length, Heap, ACKNOWLEDGED, BLOCKS, CLASS, CONDEMNED_TOP, FREE_TOP, HANDED_OUT, KEPT, MUTATORS, MUTATOR_WORDS, NEXT,
    NUMBER, PLACE, ROOTS, SIDE, STATE, TIE, TRACE_HEIGHT,
};
use crate::mutators::{in_handshake, ABSENT, OUTSIDE};
use crate::segments::{Head, CONDEMNED, FREE, FULL, HELD, PART};
use crate::trace::Bit;

/// A condition that holds, or nothing.
fn must(holds: bool) -> Option<()> {
    holds.then_some(())
}

/// The memory, and the scratch in its three parts: records still to look into, records reached, and records reached from the trace stack
/// over unmarked ones.
struct Examination<'a> {
    heap: Heap<&'a [u32]>,
    phase: u32,
    waiting: &'a mut [u32],
    height: usize,
    reached: &'a mut [u32],
    grey: &'a mut [u32],
}

/// 1 bit of a bitmap of the scratch is set. Was it new?
fn add(bitmap: &mut [u32], reference: u32) -> Option<bool> {
    let offset = reference.wrapping_sub(BLOCKS as u32);
    let word = bitmap.get_mut(offset as usize / 64)?;
    let mask = 1 << (offset / 2 % 32);
    let new = *word & mask == 0;
    *word |= mask;
    Some(new)
}

fn contains(bitmap: &[u32], reference: u32) -> Option<bool> {
    let offset = reference.wrapping_sub(BLOCKS as u32);
    Some(bitmap.get(offset as usize / 64)? >> (offset / 2 % 32) & 1 == 1)
}

/// A segment's descriptor: its head and its bitmap tree.
struct Segment<'a> {
    head: &'a Head,
    tree: Tree<'a>,
}

impl Segment<'_> {
    /// Is a block in use?
    fn in_use(&self, block: u32) -> Option<bool> {
        Some(block < self.head[PLACE] || self.tree.level0.get(block as usize / 32)? >> (block % 32) & 1 == 1)
    }
}

impl Examination<'_> {
    fn word(&self, at: usize) -> Option<u32> {
        self.heap.word(at).ok()
    }

    fn head(&self, segment: usize) -> Option<&Head> {
        must(segment < self.heap.segments)?;
        self.heap.head(self.heap.descriptor(segment)).ok()
    }

    fn segment(&self, segment: usize) -> Option<Segment<'_>> {
        Some(Segment { head: self.head(segment)?, tree: self.heap.tree(self.heap.descriptor(segment)).ok()? })
    }

    /// The head of the descriptor at an index that a stack or a mutator names.
    fn named(&self, at: u32) -> Option<&Head> {
        let distance = (at as usize).checked_sub(self.heap.descriptors())?;
        must(distance % self.heap.size.descriptor_words() == 0)?;
        self.head(distance / self.heap.size.descriptor_words())
    }

    fn bit(&self, bit: Bit) -> Option<bool> {
        Some(self.word(bit.at)? & bit.mask != 0)
    }

    fn is_marked(&self, reference: u32) -> Option<bool> {
        self.bit(self.heap.mark_bit(reference).ok()?)
    }

    fn trace_height(&self) -> Option<usize> {
        Some(self.word(TRACE_HEIGHT)? as usize)
    }

    /// The control words, the segments, their stacks, the mutators and the records, then what is reached.
    fn all(&mut self) -> Option<()> {
        self.control()?;
        for segment in 0..self.heap.segments {
            self.descriptor(segment)?;
        }
        self.stacks()?;
        for mutator in 0..MUTATORS {
            self.mutator(mutator)?;
        }
        self.headers()?;
        match self.phase {
            IDLE => {}
            SWEEP => self.condemned_marks()?,
            _ => self.marks()?,
        }
        self.grey_records()?;
        self.reached_records()
    }

    fn control(&self) -> Option<()> {
        must(self.phase <= SWEEP)?;
        let height = self.trace_height()?;
        must(height <= self.heap.size.most_blocks() * self.heap.segments)?;
        must(height == 0 || in_handshake(self.phase) || self.phase == MARK)
    }

    fn descriptor(&self, number: usize) -> Option<()> {
        let segment = self.segment(number)?;
        let head = segment.head;
        must(head[NUMBER] as usize == number && head[STATE] <= CONDEMNED)?;
        if head[STATE] == FREE {
            return must(head[KEPT] == 0 && head[HANDED_OUT] == 0);
        }
        let class = head[CLASS];
        must(classes::is_class(class))?;
        self.bitmap(&segment, class)?;
        self.counts(&segment, class)?;
        let blocks = self.heap.size.blocks(class);
        if head[STATE] == CONDEMNED {
            return must(head[PLACE] <= blocks && self.phase != IDLE);
        }
        if head[STATE] == FULL {
            return must(head[PLACE] == blocks && head[NEXT] == blocks);
        }
        // A segment of one block is full from its first: it is never part or held.
        must(blocks > 1)?;
        must(head[PLACE] < blocks && segment.tree.next_free(blocks, head[PLACE]) == Some(head[NEXT]))?;
        must(head[STATE] == PART || self.holds(head[TIE], number, class)?)
    }

    fn bitmap(&self, segment: &Segment<'_>, class: u32) -> Option<()> {
        let (size, tree) = (self.heap.size, &segment.tree);
        let padding = size.padding(class);
        must(tree.level0.first()? & padding == padding && tree.summary == summarize(tree.level0, size, class))
    }

    /// The blocks kept are those whose bit is 1; those handed out since lie before the place, and their bit is 0.
    fn counts(&self, segment: &Segment<'_>, class: u32) -> Option<()> {
        let mut counts = [0; 2];
        for block in 0..self.heap.size.blocks(class) {
            let kept = segment.tree.level0.get(block as usize / 32)? >> (block % 32) & 1;
            counts[0] += kept;
            counts[1] += u32::from(kept == 0 && block < segment.head[PLACE]);
        }
        must(counts == [segment.head[KEPT], segment.head[HANDED_OUT]])
    }

    /// Does the mutator hold the segment?
    fn holds(&self, mutator: u32, segment: usize, class: u32) -> Option<bool> {
        must(mutator < MUTATORS)?;
        let own = mutator as usize * MUTATOR_WORDS;
        let held = self.word(held_of(own, class))?;
        Some(self.word(own + SIDE)? != ABSENT && held as usize == self.heap.descriptor(segment))
    }

    fn stacks(&self) -> Option<()> {
        self.stack(FREE_TOP, FREE, None)?;
        self.stack(CONDEMNED_TOP, CONDEMNED, None)?;
        for class in classes::LOWEST..=classes::HIGHEST {
            self.stack(part_top(class), PART, Some(class))?;
        }
        Some(())
    }

    /// A stack has each segment of the state, and of the class if one is given, once. The condemned ones lie in order.
    fn stack(&self, top: usize, state: u32, class: Option<u32>) -> Option<()> {
        let belongs = |head: &Head| head[STATE] == state && class.is_none_or(|class| head[CLASS] == class);
        let mut left = 0;
        for segment in 0..self.heap.segments {
            left += usize::from(belongs(self.head(segment)?));
        }
        let mut at = self.word(top)?;
        while at != 0 {
            let head = self.named(at)?;
            must(belongs(head))?;
            left = left.checked_sub(1)?;
            must(state != CONDEMNED || head[TIE] == 0 || head[TIE] > at)?;
            at = head[TIE];
        }
        must(left == 0)
    }

    fn mutator(&self, mutator: u32) -> Option<()> {
        let words: &[u32; MUTATOR_WORDS] = self.heap.array(mutator as usize * MUTATOR_WORDS).ok()?;
        if words[SIDE] == ABSENT {
            return must(words.iter().all(|word| *word == 0));
        }
        must(words[SIDE] <= OUTSIDE)?;
        must(match self.phase {
            SYNC1 => words[ACKNOWLEDGED] <= 1,
            SYNC2 => words[ACKNOWLEDGED] == 1 || words[ACKNOWLEDGED] == 2,
            MARK => words[ACKNOWLEDGED] == 2,
            _ => words[ACKNOWLEDGED] <= 2,
        })?;
        for class in classes::LOWEST..=classes::HIGHEST {
            let held = words[held_of(0, class)];
            if held != 0 {
                let segment = self.named(held)?;
                must(segment[STATE] == HELD && segment[CLASS] == class && segment[TIE] == mutator)?;
            }
        }
        Some(())
    }

    /// Each block in use has a record of its class.
    fn headers(&self) -> Option<()> {
        for number in 0..self.heap.segments {
            let segment = self.segment(number)?;
            if segment.head[STATE] == FREE {
                continue;
            }
            let class = segment.head[CLASS];
            for block in 0..self.heap.size.blocks(class) {
                must(!segment.in_use(block)? || self.has_class(self.block(number, class, block), class)?)?;
            }
        }
        Some(())
    }

    /// The first word of a block.
    fn block(&self, segment: usize, class: u32, block: u32) -> usize {
        BLOCKS + self.heap.size.words() * segment + classes::block_start(class, block) as usize
    }

    fn has_class(&self, at: usize, class: u32) -> Option<bool> {
        let header = self.word(at)?;
        Some(class_of(u64::from(header >> 16) + u64::from(header & 0xffff)) == Ok(class))
    }

    /// Nil, or the first word of a block in use.
    fn is_reference(&self, reference: u32) -> Option<()> {
        if reference == 0 {
            return Some(());
        }
        let (number, within) = self.heap.size.split(reference.checked_sub(BLOCKS as u32)?);
        let segment = self.segment(number)?;
        must(segment.head[STATE] != FREE)?;
        let class = segment.head[CLASS];
        let block = classes::block_at(class, within);
        must(classes::block_start(class, block) == within && segment.in_use(block)?)
    }

    /// Before sweep: marks are of blocks in use; what is queued is exactly what is marked or on the trace stack, each once, never both.
    fn marks(&mut self) -> Option<()> {
        let mut marked = 0;
        for segment in 0..self.heap.segments {
            marked += self.marks_of(segment)?;
        }
        let height = self.trace_height()?;
        for entry in 1..=height {
            let reference = self.word(self.heap.trace_top(entry))?;
            must(reference != 0)?;
            self.is_reference(reference)?;
            must(self.bit(self.heap.queued_bit(reference))? && !self.is_marked(reference)?)?;
            must(add(self.grey, reference)?)?;
        }
        let queued = self.heap.mem.get(self.heap.queued_bits()..self.heap.descriptors())?;
        must(queued.iter().map(|word| word.count_ones() as usize).sum::<usize>() == height + marked)
    }

    /// In sweep: the marks of condemned segments, which are still to become bits, are of blocks in use.
    fn condemned_marks(&self) -> Option<()> {
        for segment in 0..self.heap.segments {
            if self.head(segment)?[STATE] == CONDEMNED {
                self.marks_of(segment)?;
            }
        }
        Some(())
    }

    /// The count of a segment's marks, each of a block in use whose queued bit is set.
    fn marks_of(&self, number: usize) -> Option<usize> {
        let (segment, size) = (self.segment(number)?, self.heap.size);
        let marks = self.heap.run(self.heap.descriptor(number) + size.marks(), size.bitmap_words()).ok()?;
        let mut marked = 0;
        for block in 0..size.most_blocks() as u32 {
            if marks.get(block as usize / 32)? >> (block % 32) & 1 == 0 {
                continue;
            }
            let class = segment.head[CLASS];
            must(segment.head[STATE] != FREE && block < size.blocks(class) && segment.in_use(block)?)?;
            must(self.bit(self.heap.queued_bit(self.block(number, class, block) as u32))?)?;
            marked += 1;
        }
        Some(marked)
    }

    fn await_record(&mut self, reference: u32) -> Option<()> {
        *self.waiting.get_mut(self.height)? = reference;
        self.height += 1;
        Some(())
    }

    fn next_record(&mut self) -> Option<u32> {
        self.height = self.height.checked_sub(1)?;
        self.waiting.get(self.height).copied()
    }

    fn pointers_of(&self, reference: u32) -> Option<core::ops::Range<usize>> {
        let first = reference as usize + 1;
        Some(first..first + (self.word(reference as usize)? >> 16) as usize)
    }

    /// What the trace stack reaches over unmarked records.
    fn grey_records(&mut self) -> Option<()> {
        for entry in 1..=self.trace_height()? {
            let reference = self.word(self.heap.trace_top(entry))?;
            self.await_record(reference)?;
        }
        while let Some(record) = self.next_record() {
            for at in self.pointers_of(record)? {
                let reference = self.word(at)?;
                self.is_reference(reference)?;
                if reference != 0 && !self.is_marked(reference)? && add(self.grey, reference)? {
                    self.await_record(reference)?;
                }
            }
        }
        self.height = 0;
        Some(())
    }

    /// What roots and trace stack reach is records, and the collector will keep it.
    fn reached_records(&mut self) -> Option<()> {
        for mutator in 0..MUTATORS as usize {
            for root in 0..ROOTS as usize {
                self.reach(self.word(mutator * MUTATOR_WORDS + root)?)?;
            }
        }
        for entry in 1..=self.trace_height()? {
            self.reach(self.word(self.heap.trace_top(entry))?)?;
        }
        while let Some(record) = self.next_record() {
            for at in self.pointers_of(record)? {
                self.reach(self.word(at)?)?;
            }
        }
        Some(())
    }

    fn reach(&mut self, reference: u32) -> Option<()> {
        self.is_reference(reference)?;
        if reference == 0 || !add(self.reached, reference)? {
            return Some(());
        }
        must(self.is_kept(reference)?)?;
        self.await_record(reference)
    }

    /// Will the cycle that runs keep this reached record?
    fn is_kept(&self, reference: u32) -> Option<bool> {
        let (number, _) = self.heap.size.split(reference.checked_sub(BLOCKS as u32)?);
        if self.head(number)?[STATE] != CONDEMNED || in_handshake(self.phase) {
            return Some(true);
        }
        Some(self.is_marked(reference)? || contains(self.grey, reference)?)
    }
}

/// Yes where the memory is consistent. The scratch ends all 0; refused 1 only, and then it is as it was.
pub fn examine(segments: u32, kib: u32, mem: &[u32], scratch: &mut [u32]) -> Answer<bool> {
    let heap = Heap::over(segments, kib, mem)?;
    if scratch.len() != scratch_length(segments, kib) {
        return refuse(Refusal::SIZE);
    }
    scratch.fill(0);
    let phase = heap.phase()?;
    let (waiting, bitmaps) = scratch.split_at_mut(heap.size.most_blocks() * heap.segments);
    let (reached, grey) = bitmaps.split_at_mut(heap.size.bitmap_words() * heap.segments);
    let consistent = Examination { heap, phase, waiting, height: 0, reached, grey }.all().is_some();
    scratch.fill(0);
    Ok(consistent)
}
