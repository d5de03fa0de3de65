//! The second half of demand 3, as request No. 5 has it: a block in use of a segment that was full or part when a cycle began, and that no
//! mutator could then reach, is free once that segment is swept. Which record a block holds is seen from the root that a make fills
//! (docs/LAYOUT.md). So are the blocks in use and each segment's two counts, by calls alone: a make adds a block, a sweep leaves those whose
//! records are marked.

use crate::layout::{self, Geometry};
use crate::unbounded::{Reference, UnboundedHeap};

pub struct Blocks {
    g: Geometry,
    /// The blocks of a segment in the lists below: the most that one can have.
    per_segment: usize,
    /// The record last put into each block, 0 for none.
    held: Vec<Reference>,
    /// For each block whether it is in use, and how many are.
    used: Vec<bool>,
    in_use: u64,
    /// By segment: the class of the record last put into it, 0 before one, and the two counts.
    classes: Vec<u32>,
    counts: Vec<[u32; 2]>,
    /// Of the cycle that runs: for each block, whether it was in use in a full or part segment, and unreached, when the cycle began.
    dead: Vec<bool>,
}

/// Where a make put its record, and whether the segment was one of another class before.
pub struct Put {
    pub segment: u32,
    pub other_class: bool,
}

impl Blocks {
    pub fn new(g: Geometry) -> Blocks {
        let per_segment = g.most_blocks() as usize;
        let (count, words) = (g.n(), g.n() * per_segment);
        Blocks {
            g,
            per_segment,
            held: vec![0; words],
            used: vec![false; words],
            in_use: 0,
            classes: vec![0; count],
            counts: vec![[0, 0]; count],
            dead: vec![false; words],
        }
    }

    /// The block is found to be in use, with the record.
    pub fn adopt(&mut self, segment: u32, block: u32, record: Reference) {
        self.fill(segment as usize * self.per_segment + block as usize, record);
    }

    /// The segment is found with the class and the counts.
    pub fn adopt_segment(&mut self, segment: u32, class: u32, counts: [u32; 2]) {
        self.classes[segment as usize] = class;
        self.counts[segment as usize] = counts;
    }

    fn fill(&mut self, at: usize, record: Reference) {
        self.held[at] = record;
        self.used[at] = true;
        self.in_use += 1;
    }

    /// How many blocks are in use.
    pub fn in_use(&self) -> u64 {
        self.in_use
    }

    /// The two counts of a segment.
    pub fn counts(&self, segment: usize) -> [u32; 2] {
        self.counts[segment]
    }

    /// A make that was not refused put record `record` into the block that its root now names.
    pub fn put(&mut self, memory: &[u32], class: u32, root: u32, record: Reference) -> Result<Put, String> {
        if root == 0 || root as usize > self.g.n() * self.g.segment_words() {
            return Err(format!("make left reference {root} in its root"));
        }
        let word = root as usize - 1;
        let segment = (word / self.g.segment_words()) as u32;
        let size = (1usize << class) / 4;
        let within = word % self.g.segment_words();
        let [state, of_class, ..] = layout::segment(memory, self.g, segment);
        if within & (size - 1) != 0 || of_class != class || !matches!(state, 2 | 3) {
            return Err(format!("make of class {class} took word {within} of segment {segment}, state {state}, class {of_class}"));
        }
        let block = within / size;
        let at = segment as usize * self.per_segment + block;
        if self.used[at] {
            return Err(format!("make took block {block} of segment {segment}, which was in use"));
        }
        self.fill(at, record);
        self.counts[segment as usize][1] += 1;
        let before = std::mem::replace(&mut self.classes[segment as usize], class);
        Ok(Put { segment, other_class: before != 0 && before != class })
    }

    /// A segment of the class is swept: the blocks whose records are marked stay in use, and are those kept.
    pub fn keep(&mut self, segment: u32, class: u32, marked: impl Fn(Reference) -> bool) {
        let at = segment as usize * self.per_segment;
        let mut kept = 0;
        for at in at..at + self.g.blocks(class) as usize {
            self.in_use -= u64::from(self.used[at]);
            self.used[at] &= marked(self.held[at]);
            kept += u32::from(self.used[at]);
        }
        self.in_use += u64::from(kept);
        self.counts[segment as usize] = [kept, 0];
    }

    /// Whether the block is in use.
    pub fn is_used(&self, segment: u32, block: u32) -> bool {
        self.used[segment as usize * self.per_segment + block as usize]
    }

    /// The records last put into the blocks of a segment of the class.
    pub fn records(&self, segment: usize, class: u32) -> &[Reference] {
        let at = segment * self.per_segment;
        &self.held[at..at + self.g.blocks(class) as usize]
    }

    /// Those in the blocks that are in use.
    pub fn records_in_use(&self, segment: usize, class: u32) -> impl Iterator<Item = Reference> + '_ {
        let used = &self.used[segment * self.per_segment..];
        self.records(segment, class).iter().zip(used).filter(|(_, &used)| used).map(|(&record, _)| record)
    }

    /// The record in the block that a reference in the verified library's memory names.
    pub fn named(&self, memory: &[u32], reference: u32) -> Option<Reference> {
        let word = (reference as usize).checked_sub(1)?;
        let segment = word / self.g.segment_words();
        if segment >= self.g.n() {
            return None;
        }
        let class = layout::segment(memory, self.g, segment as u32)[1];
        let block = (word % self.g.segment_words() * 4) >> class;
        self.records(segment, class).get(block).copied()
    }

    /// A cycle begins; `states` is the look at the states just before.
    pub fn start(&mut self, states: &[u32], heap: &mut UnboundedHeap) {
        heap.search();
        self.dead.fill(false);
        for (segment, state) in layout::each_segment(states).enumerate() {
            if !matches!(state[0], 1 | 3) {
                continue;
            }
            for block in 0..self.g.blocks(state[1]) as usize {
                let at = segment * self.per_segment + block;
                self.dead[at] = self.used[at] && !heap.was_reached(self.held[at]);
            }
        }
    }

    /// A step answered Swept; `before` is the segment's state before it. Answers how many blocks it had to free.
    pub fn swept(&self, memory: &[u32], segment: u32, before: &[u32], freed: u32) -> Result<u32, String> {
        let mut due = 0;
        let mut became_free = 0;
        for block in 0..self.g.blocks(before[1]) {
            let at = segment as usize * self.per_segment + block as usize;
            let (was_used, is_used) = (self.used[at], layout::in_use(memory, self.g, segment, block));
            became_free += u32::from(was_used && !is_used);
            due += u32::from(self.dead[at]);
            if is_used && (self.dead[at] || !was_used) {
                return Err(format!("block {block} of segment {segment} was unreached or not in use, and is in use"));
            }
        }
        if became_free != freed || freed < due {
            return Err(format!("segment {segment}: {freed} said to be freed, {became_free} became free, {due} were unreached"));
        }
        Ok(due)
    }
}
