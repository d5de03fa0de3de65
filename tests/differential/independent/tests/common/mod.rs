//! A heap of segments of 16 or of 32 KiB, in memory that was full of other words, examined after every call.

#![allow(dead_code)]

use independent::{Answer, Shape, Step};

pub const SIZES: [u32; 2] = [16, 32];

pub struct World {
    pub segments: u32,
    pub kib: u32,
    pub mem: Vec<u32>,
}

macro_rules! calls {
    ($($name:ident($($number:ident),*) -> $result:ty;)*) => {$(
        pub fn $name(&mut self $(, $number: u32)*) -> Answer<$result> {
            let before = self.mem.clone();
            let answer = independent::$name(self.segments, self.kib, &mut self.mem $(, $number)*);
            if answer.is_err() {
                assert!(before == self.mem, "refused, and changed");
            }
            self.examine();
            answer
        }
    )*};
}

impl World {
    pub fn new(segments: u32, kib: u32) -> World {
        let mut mem = vec![0; independent::length(segments, kib)];
        let mut random = 7_u64;
        for word in &mut mem {
            random = random.wrapping_mul(6_364_136_223_846_793_005).wrapping_add(1_442_695_040_888_963_407);
            *word = (random >> 32) as u32;
        }
        let mut world = World { segments, kib, mem };
        assert!(!world.consistent());
        assert_eq!(independent::open(segments, kib, &mut world.mem), Ok(()));
        world.examine();
        world
    }

    pub fn consistent(&self) -> bool {
        let mut scratch = vec![5; independent::scratch_length(self.segments, self.kib)];
        let answer = independent::examine(self.segments, self.kib, &self.mem, &mut scratch);
        assert!(scratch.iter().all(|word| *word == 0));
        answer == Ok(true)
    }

    pub fn examine(&self) {
        assert!(self.consistent(), "the examination fails");
    }

    calls! {
        attach(mutator) -> ();
        spawn(mutator, parent, root) -> ();
        detach(mutator) -> ();
        make(mutator, to, pointers, values) -> ();
        load(mutator, to, root, field) -> ();
        store(mutator, root, field, from) -> ();
        put(mutator, root, field, value) -> ();
        copy(mutator, to, from) -> ();
        clear(mutator, to) -> ();
        check(mutator) -> ();
        leave(mutator) -> ();
        enter(mutator) -> ();
        start() -> ();
        step() -> Step;
    }

    pub fn get(&self, mutator: u32, root: u32, field: u32) -> Answer<u32> {
        independent::get(self.segments, self.kib, &self.mem, mutator, root, field)
    }

    pub fn same(&self, mutator: u32, root: u32, other: u32) -> Answer<bool> {
        independent::same(self.segments, self.kib, &self.mem, mutator, root, other)
    }

    pub fn shape(&self, mutator: u32, root: u32) -> Answer<Shape> {
        independent::shape(self.segments, self.kib, &self.mem, mutator, root)
    }

    pub fn phase(&self) -> u32 {
        independent::phase(self.segments, self.kib, &self.mem).expect("a phase")
    }

    /// The six words of each segment.
    pub fn states(&self) -> Vec<[u32; 6]> {
        let mut output = vec![0; independent::states_length(self.segments, self.kib)];
        assert_eq!(independent::states(self.segments, self.kib, &self.mem, &mut output), Ok(()));
        output.chunks_exact(6).map(|words| words.try_into().expect("six words")).collect()
    }

    /// State, class, place and mutator.
    pub fn state(&self, segment: usize) -> [u32; 4] {
        let [state, class, place, mutator, ..] = self.states()[segment];
        [state, class, place, mutator]
    }

    /// The blocks kept at the last sweep, and those handed out since.
    pub fn counts(&self, segment: usize) -> [u32; 2] {
        let [.., kept, handed_out] = self.states()[segment];
        [kept, handed_out]
    }

    /// The class that has four blocks in a segment.
    pub fn quarter(&self) -> u32 {
        if self.kib == 32 {
            13
        } else {
            12
        }
    }

    /// A record of that class with one pointer.
    pub fn make_quarter(&mut self, mutator: u32, root: u32) -> Answer<()> {
        self.make(mutator, root, 1, 600 * self.kib / 16)
    }

    /// Fills a segment with such records in roots 0 to 3 of the mutator.
    pub fn fill_segment(&mut self, mutator: u32) {
        for root in 0..4 {
            assert_eq!(self.make_quarter(mutator, root), Ok(()));
        }
    }

    /// Where the descriptor of a segment begins, and its marks in it.
    pub fn descriptor(&self, segment: usize) -> usize {
        let n = self.segments as usize;
        if self.kib == 32 {
            1040 + 8320 * n + 268 * segment
        } else {
            1040 + 4160 * n + 138 * segment
        }
    }

    pub fn marks(&self) -> usize {
        if self.kib == 32 {
            140
        } else {
            74
        }
    }

    /// Plays the cycle from the first handshake to the phase mark, all mutators inside checking.
    pub fn play_to_mark(&mut self, mutators: &[u32]) {
        for _ in 0..2 {
            for mutator in mutators {
                assert_eq!(self.check(*mutator), Ok(()));
            }
            assert_eq!(self.step(), Ok(Step::Moved));
        }
    }

    /// Steps while records are traced; how many were, once the phase is sweep.
    pub fn trace_all(&mut self) -> u32 {
        let mut traced = 0;
        loop {
            match self.step() {
                Ok(Step::Traced) => traced += 1,
                Ok(Step::Moved) => return traced,
                other => panic!("{other:?} in mark"),
            }
        }
    }
}
