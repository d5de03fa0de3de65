//! A pacer: so many steps of the collector after each make, and each cycle begun as late as that pace allows.

use core::fmt;

use crate::collector::Step;
use crate::heap::Heap;
use crate::looks::{Phase, SegmentRecord, SegmentState, States};
use crate::numbers::{MutatorId, Root, Shape};
use crate::refusal::{Refusal, Result};
use crate::segments::SegmentSize;

/// Runs the collector beside the makes: at most so many steps after each of them, and a cycle begun as late as that
/// pace allows, so that it finds the most to free. docs/PACING.md says why and when this holds.
///
/// It looks at the segments' states now and then, through an output that it keeps; their counts say how many blocks are
/// in use. So it has two bounds: the makes that are certain to find room, in any order, by any of the mutators and of
/// any class in play, and the steps that a cycle begun now can take. A start condemns the part segments too, which are
/// then no room before their sweep: so the first bound is what the held and the free segments have. Once these makes
/// times the pace are no more than the steps, it starts a cycle.
///
/// [`room`](Pacer::room) says the first bound, and [`kept`](Pacer::kept) whether the pace promises that a cycle ends
/// before that room is used up. Where not, makes may be refused NoRoom: lend more segments, take more steps, say by
/// [`makers`](Pacer::makers) that fewer mutators make a class, or call [`finish`](Pacer::finish). A detach makes part
/// what the mutator held: what it takes from both, the next look says, and no cycle starts before that look.
///
/// Every make, and every step of the heap, goes through it. A segment that a mutator holds is in no collect set:
/// records of a class that it makes no more may lie dead there until it is detached.
///
/// ```
/// use borvukhai::{Heap, MutatorId, Pacer, Root, SegmentSize, Segments, Shape};
///
/// const SEGMENTS: Segments = Segments::new(2).unwrap();
/// const SIZE: SegmentSize = SegmentSize::Kib32;
/// const ID: MutatorId = MutatorId::new(0).unwrap();
///
/// let mut heap = Heap::open(SEGMENTS, SIZE, [0; SEGMENTS.length(SIZE)])?;
/// heap.attach(ID)?;
/// let mut pacer = Pacer::new(&heap, [0; SEGMENTS.states_length()], 2, 1)?;
/// for _ in 0..100_000 {
///     pacer.make(&mut heap, ID, Root::R0, Shape::new(1, 2))?; // never refused NoRoom
/// }
/// # Ok::<(), borvukhai::Refusal>(())
/// ```
pub struct Pacer<O> {
    output: O,
    steps: u32,
    mutators: u32,
    makers: [u32; CLASSES],
    room: u32,
    wait: u32,
    kept: bool,
    running: bool,
}

/// Class numbers are 3 to 14; the counts stand at their number.
const CLASSES: usize = 15;

/// Mutators' numbers are 0 to 31.
const MUTATORS: usize = 32;

/// What the look says of the segments of one class. Open are those that a make may take a block of: held ones, and part
/// ones where no start comes before.
#[derive(Clone, Copy, Default)]
struct Class {
    /// How many there are, and how many of them mutators hold.
    segments: u32,
    held: u32,
    /// The blocks that the open ones have left.
    left: u32,
    /// What an open one has left once every part one is taken: the largest, falling.
    most_left: [u16; MUTATORS],
}

/// What the look says of all segments.
struct Look {
    size: SegmentSize,
    /// Whether part segments are open.
    parts: bool,
    free: u32,
    /// The segments that a start condemns: those full or part.
    due: u32,
    /// Blocks in use.
    in_use: u32,
    classes: [Class; CLASSES],
}

impl Look {
    /// Of no segment yet.
    fn new(size: SegmentSize, parts: bool) -> Look {
        Look { size, parts, free: 0, due: 0, in_use: 0, classes: [Class::default(); CLASSES] }
    }

    fn see(&mut self, record: SegmentRecord) {
        let due = matches!(record.state, SegmentState::Full { .. } | SegmentState::Part { .. });
        self.due += u32::from(due);
        match record.state {
            SegmentState::Free => self.free += 1,
            SegmentState::Held { class, .. } => self.open(class, &record, true),
            SegmentState::Part { class, .. } if self.parts => self.open(class, &record, false),
            SegmentState::Part { class, .. } | SegmentState::Full { class, .. } | SegmentState::Condemned { class, .. } => {
                self.used(class, &record);
            }
        }
    }

    /// A segment's class and the blocks that it has left, its blocks in use being counted. Torn memory may have any
    /// class, which is then the last one, and any counts: no more than all are in use.
    fn used(&mut self, class: u32, record: &SegmentRecord) -> (&mut Class, u32) {
        let class = (class as usize).min(CLASSES - 1);
        let blocks = self.size.blocks(class as u32);
        let used = record.kept.saturating_add(record.handed_out).min(blocks);
        self.in_use += used;
        let of = &mut self.classes[class];
        of.segments += 1;
        (of, blocks - used)
    }

    /// Of a part one its taker uses a block.
    fn open(&mut self, class: u32, record: &SegmentRecord, held: bool) {
        let (of, left) = self.used(class, record);
        of.held += u32::from(held);
        of.left += left;
        of.insert(left.saturating_sub(u32::from(!held)) as u16);
    }
}

impl Class {
    fn insert(&mut self, mut left: u16) {
        for here in &mut self.most_left {
            if *here < left {
                core::mem::swap(here, &mut left);
            }
        }
    }

    /// The most free blocks that so many mutators can hold while no segment of the class is part.
    fn left(&self, mutators: u32) -> u32 {
        self.most_left.iter().take(mutators as usize).map(|&left| u32::from(left)).sum()
    }

    /// What it costs, in makes, that its makers take one free segment more, `makers` of them being without one: one
    /// make, and before it those that fill the segment held.
    fn cost(&self, makers: u32) -> u32 {
        let last = (makers as usize).wrapping_sub(1);
        1 + self.most_left.get(last).map_or(0, |&left| u32::from(left))
    }
}

/// What it costs, in makes, to take free segments: the least first, and `smallest` for each beyond them, as then all
/// who make a class hold a segment that was free, and another costs the blocks of one.
struct Costs {
    count: usize,
    cost: [u16; MUTATORS * (CLASSES - 3)],
    smallest: u32,
}

impl Costs {
    fn add(&mut self, of: &Class, makers: u32) {
        for turn in (1..=makers).rev() {
            if let Some(cost) = self.cost.get_mut(self.count) {
                *cost = of.cost(turn) as u16;
                self.count += 1;
            }
        }
    }

    /// The least makes that take so many free segments.
    fn sum(&self, segments: u32) -> u32 {
        let listed = self.cost[..self.count].iter().map(|&cost| u32::from(cost).min(self.smallest));
        listed.chain(core::iter::repeat(self.smallest)).take(segments as usize).sum()
    }
}

impl<O> fmt::Debug for Pacer<O> {
    fn fmt(&self, f: &mut fmt::Formatter<'_>) -> fmt::Result {
        f.debug_struct("Pacer").field("steps", &self.steps).field("running", &self.running).finish_non_exhaustive()
    }
}

impl<O: AsRef<[u32]> + AsMut<[u32]>> Pacer<O> {
    /// A pacer of a heap that was opened, or taken up from memory, in a cycle or not. `output` has
    /// [`Segments::states_length`](crate::Segments::states_length) words, `steps` is the most after a make, and
    /// `mutators` how many are attached at most; while inside, each checks at least once in so many makes. Refused
    /// Size where the output has another length, and Torn.
    pub fn new<M: AsRef<[u32]> + AsMut<[u32]>>(heap: &Heap<M>, output: O, steps: u32, mutators: u32) -> Result<Pacer<O>> {
        let running = heap.phase()? != Phase::Idle;
        let mutators = mutators.clamp(1, MUTATORS as u32);
        let makers = [0; CLASSES];
        let mut pacer = Pacer { output, steps, mutators, makers, room: 0, wait: 0, kept: false, running };
        pacer.look(heap)?;
        Ok(pacer)
    }

    /// Whether a cycle runs.
    pub fn running(&self) -> bool {
        self.running
    }

    /// So many next makes are certain to find room, in any order, by any of the mutators and of any class in play: one
    /// that was made, that [`makers`](Pacer::makers) named, or that has a segment.
    pub fn room(&self) -> u32 {
        self.room
    }

    /// Whether a cycle begun in time is certain to end before the room does, so that no make of a class in play is
    /// refused NoRoom.
    pub fn kept(&self) -> bool {
        self.kept
    }

    /// So many mutators make records of this shape's class. Before the first of them, it puts the class in play, so
    /// that already that make is in the bound; and where fewer make a class than are attached, the bound is less strict.
    pub fn makers<M: AsRef<[u32]> + AsMut<[u32]>>(&mut self, heap: &Heap<M>, shape: Shape, mutators: u32) -> Result<()> {
        if let Some(makers) = shape.class().and_then(|class| self.makers.get_mut(class as usize)) {
            *makers = mutators.min(MUTATORS as u32);
        }
        self.look(heap).map(|_| ())
    }

    /// A whole cycle before the next make, or the rest of the one that runs: what helps where a make was refused
    /// NoRoom, and in a small heap where the pace is not [`kept`](Pacer::kept). Every mutator that is inside checks. A
    /// cycle that ran already has not collected what became full or part since: still refused, call it again.
    pub fn finish<M: AsRef<[u32]> + AsMut<[u32]>>(&mut self, heap: &mut Heap<M>) -> Result<()> {
        if !self.running {
            self.look(heap)?;
            heap.start()?;
            self.running = true;
        }
        for _ in 0..heap.most_steps() {
            if !self.running {
                return Ok(());
            }
            if self.one(heap)? {
                heap.check_all()?;
            }
        }
        if self.running { Err(Refusal::Torn) } else { Ok(()) }
    }

    /// A make, a check by the mutator that made, and the collector's share. Refused as [`make`](crate::Mutator::make)
    /// is; then neither follows.
    pub fn make<M: AsRef<[u32]> + AsMut<[u32]>>(&mut self, heap: &mut Heap<M>, id: MutatorId, to: Root, shape: Shape) -> Result<()> {
        let mut mutator = heap.mutator(id);
        mutator.make(to, shape)?;
        mutator.check()?;
        self.made(heap, shape)
    }

    /// The collector's share after a make that was done elsewhere: at most so many steps as [`new`](Pacer::new) was
    /// told.
    pub fn made<M: AsRef<[u32]> + AsMut<[u32]>>(&mut self, heap: &mut Heap<M>, shape: Shape) -> Result<()> {
        self.room = self.room.saturating_sub(1);
        if shape.class().is_some_and(|class| self.makers[class as usize] == 0) {
            self.look(heap)?; // a class that the last look knew nothing of
            self.wait = 0;
        }
        if self.running {
            return self.step(heap);
        }
        if self.wait > 1 {
            self.wait -= 1;
            return Ok(());
        }
        self.start(heap)
    }

    /// A look, and the start of a cycle where no make may pass and a segment is full or part.
    fn start<M: AsRef<[u32]> + AsMut<[u32]>>(&mut self, heap: &mut Heap<M>) -> Result<()> {
        let look = self.look(heap)?;
        if self.wait != 0 || look.due == 0 {
            return Ok(());
        }
        heap.start()?;
        self.running = true;
        Ok(())
    }

    /// The states, and how many makes may pass before the next look: each takes at most one of the room that a start
    /// leaves, whoever makes, and adds one to the work.
    fn look<M: AsRef<[u32]> + AsMut<[u32]>>(&mut self, heap: &Heap<M>) -> Result<Look> {
        (self.room, self.wait, self.kept) = (0, 0, false);
        heap.states(self.output.as_mut())?;
        let look = self.seen(heap.segment_size(), false)?;
        for (makers, of) in self.makers.iter_mut().zip(&look.classes) {
            *makers = if *makers == 0 && of.segments != 0 { self.mutators } else { *makers };
            *makers = (*makers).max(of.held).min(MUTATORS as u32);
        }
        self.room = self.certain(&look);
        let (ahead, work) = (self.ahead(self.room), self.work(&look, heap.segments().count()));
        self.kept = ahead >= work;
        self.wait = u32::try_from(ahead.saturating_sub(work) / (u64::from(self.steps) + 1)).unwrap_or(u32::MAX);
        if !self.kept {
            let room = self.certain(&self.seen(heap.segment_size(), true)?);
            self.open_parts(room, work);
        }
        Ok(look)
    }

    /// Where the room that a start leaves is too little for a cycle, but part segments have room too. A cycle that runs
    /// already leaves them open. In idle, where nearly all of the room is theirs, makes pass first, which take them: the
    /// next look is after as many as the other room has, as it cannot grow before, and a few.
    fn open_parts(&mut self, room: u32, work: u64) {
        if self.running {
            self.kept = self.ahead(room) >= work;
        } else if room / 6 > self.room {
            self.wait = self.room + 3;
        }
    }

    /// What the states say that the output has, the part segments open or not.
    fn seen(&self, size: SegmentSize, parts: bool) -> Result<Look> {
        let mut look = Look::new(size, parts);
        States::of(self.output.as_ref(), size)?.for_each(|record| look.see(record));
        Ok(look)
    }

    /// Makes that are certain to find room: the fewest after which one can be refused. That one is of a mutator that
    /// holds no segment of the class, and no segment is part in the class or free. So the class's own blocks are used
    /// but for what the others hold, and all free segments are taken, by others than this one.
    fn certain(&self, look: &Look) -> u32 {
        let mut costs = Costs { count: 0, cost: [0; MUTATORS * (CLASSES - 3)], smallest: 0 };
        let played = (0..CLASSES).filter(|&class| self.makers[class] != 0);
        for class in played.clone() {
            costs.add(&look.classes[class], self.makers[class]);
            costs.smallest = look.size.blocks(class as u32);
        }
        costs.cost[..costs.count].sort_unstable();
        let (all, beside) = (costs.sum(look.free), costs.sum(look.free + 1));
        let rooms = played.map(|class| {
            let (of, makers) = (&look.classes[class], self.makers[class]);
            of.left - of.left(makers - 1) + all.max(beside.saturating_sub(of.cost(makers)))
        });
        rooms.min().unwrap_or(0)
    }

    /// The steps that the pace takes while this room lasts, once every mutator has acknowledged twice.
    fn ahead(&self, room: u32) -> u64 {
        u64::from(room.saturating_sub(2 * self.mutators)) * u64::from(self.steps)
    }

    /// Steps that a cycle begun now can take: one for each record, one for each segment, and six beside.
    fn work(&self, look: &Look, segments: u32) -> u64 {
        u64::from(2 * self.mutators + segments + 6 + look.in_use)
    }

    /// The steps of one turn, fewer where the cycle ends, or waits for a mutator.
    fn step<M: AsRef<[u32]> + AsMut<[u32]>>(&mut self, heap: &mut Heap<M>) -> Result<()> {
        for _ in 0..self.steps {
            if self.one(heap)? || !self.running {
                break;
            }
        }
        Ok(())
    }

    /// One step, and a look where it ended the cycle; whether it waits for a mutator.
    fn one<M: AsRef<[u32]> + AsMut<[u32]>>(&mut self, heap: &mut Heap<M>) -> Result<bool> {
        let step = heap.step()?;
        match step {
            Step::Moved | Step::Traced | Step::Waiting(_) | Step::Swept { .. } => {}
            Step::Done | Step::Idle => {
                self.running = false;
                self.look(heap)?;
            }
        }
        Ok(matches!(step, Step::Waiting(_)))
    }
}
