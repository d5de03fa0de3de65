//! Memory that holds a heap already: taken up as it was, refused where it is torn, and safe where it is not examined.

mod common;

use borvukhai::{Heap, Refusal, Root, SegmentSize, Segments, Shape, Step};
use common::{ONE, SHAPE, STATES, at, fill, fresh, full, id, off_heap, scratch};

#[test]
fn a_heap_goes_on_in_the_middle_of_a_cycle() {
    for size in SegmentSize::ALL {
        let mut words = full(size);
        let mut heap = Heap::open(ONE, size, &mut words[..]).unwrap();
        let mut mutator = heap.attach(id(9)).unwrap();
        mutator.make(Root::R0, SHAPE).unwrap();
        for _ in 1..fill(size) {
            mutator.make(Root::R1, SHAPE).unwrap();
        }
        mutator.put(Root::R0, 599, 123).unwrap();
        heap.start().unwrap();
        assert_eq!(heap.step(), Ok(Step::Waiting(1)));

        let mut heap = Heap::adopt(ONE, size, words, &mut scratch(size)).unwrap();
        assert_eq!(heap.finish_cycle(), Ok(fill(size) - 2));
        assert_eq!(heap.mutator(id(9)).get(Root::R0, 599), Ok(123));
    }
}

#[test]
fn torn_memory_is_refused_and_handed_back() {
    for size in SegmentSize::ALL {
        let breaks: [(usize, u32); 8] = [
            (at::PHASE, 5),
            (at::TRACE_COUNT, 1),
            (at::ROOT, off_heap(size)),
            (at::HELD, 1),
            (at::tag(size), 0),
            (at::kept(size), 1),
            (at::handed_out(size), 3),
            (at::free_count(size), 1),
        ];
        for (word, value) in breaks {
            let mut words = full(size);
            words[word] = value;
            let mut scratch = scratch(size);
            let refused = Heap::adopt(ONE, size, words.clone(), &mut scratch).unwrap_err();
            assert_eq!(refused.refusal, Refusal::Torn, "word {word}");
            assert!(refused.memory == words, "word {word}");
            assert!(scratch.iter().all(|&word| word == 0));
        }
    }
}

#[test]
fn another_length_count_or_size_is_refused() {
    for size in SegmentSize::ALL {
        let right = ONE.scratch_length(size);
        for length in [0, right - 1, right + 1] {
            let refused = Heap::adopt(ONE, size, fresh(size), &mut vec![0; length]).unwrap_err();
            assert_eq!(refused.refusal, Refusal::Size);
        }
        for (segments, other) in [1, 2, 255].into_iter().flat_map(|count| SegmentSize::ALL.map(|other| (count, other))) {
            let segments = Segments::new(segments).unwrap();
            if (segments, other) == (ONE, size) {
                continue;
            }
            let mut scratch = vec![7; segments.scratch_length(other)];
            let refused = Heap::adopt(segments, other, fresh(size), &mut scratch).unwrap_err();
            assert_eq!(refused.refusal, Refusal::Size);
            assert!(refused.memory == fresh(size) && scratch.iter().all(|&word| word == 7));
        }
    }
}

/// Zeros that nobody opened: a mutator attaches, and every make is refused NoRoom. The examination finds it.
#[test]
fn memory_that_was_never_opened() {
    for size in SegmentSize::ALL {
        let mut heap = Heap::adopt_unexamined(ONE, size, vec![0; ONE.length(size)]).unwrap();
        assert_eq!(heap.attach(id(0)).unwrap().make(Root::R0, Shape::new(1, 2)), Err(Refusal::NoRoom));
        let refused = Heap::adopt(ONE, size, vec![0; ONE.length(size)], &mut scratch(size)).unwrap_err();
        assert_eq!(refused.refusal, Refusal::Torn);
    }
}

/// Numbers by a xorshift.
struct Dice(u64);

impl Dice {
    fn below(&mut self, n: u32) -> u32 {
        self.0 ^= self.0 << 13;
        self.0 ^= self.0 >> 7;
        self.0 ^= self.0 << 17;
        (self.0 >> 32) as u32 % n
    }
    fn root(&mut self) -> Root {
        Root::new(self.below(16)).unwrap()
    }
}

/// One call of any kind; what it answers does not matter.
fn any_call(heap: &mut Heap<Vec<u32>>, dice: &mut Dice) {
    let mut mutator = heap.mutator(id(dice.below(32)));
    let (a, b, field) = (dice.root(), dice.root(), dice.below(4));
    let _ = match dice.below(14) {
        0 => mutator.make(a, Shape::new(field, dice.below(4096))),
        1 => mutator.load(a, b, field),
        2 => mutator.store(a, field, b),
        3 => mutator.put(a, field, field),
        4 => mutator.get(a, field).map(drop),
        5 => mutator.copy(a, b),
        6 => mutator.same(a, b).map(drop),
        7 => mutator.shape(a).map(drop),
        8 => mutator.check(),
        9 => mutator.leave(),
        10 => mutator.enter(),
        11 => mutator.detach(),
        12 => heap.start(),
        _ => heap.step().map(drop),
    };
    let _ = heap.states(&mut [0; STATES]).map(Iterator::count);
}

#[test]
fn calls_over_words_of_any_content_end() {
    let mut dice = Dice(0x9e37_79b9_7f4a_7c15);
    for (round, size) in (0..200).flat_map(|round| SegmentSize::ALL.map(|size| (round, size))) {
        let mut words = full(size);
        for _ in 0..1 << (round % 13) {
            let word = dice.below(words.len() as u32) as usize;
            words[word] = if round % 2 == 0 { dice.below(u32::MAX) } else { dice.below(40) };
        }
        let mut heap = Heap::adopt_unexamined(ONE, size, words).unwrap();
        for _ in 0..100 {
            any_call(&mut heap, &mut dice);
        }
        let _ = heap.finish_cycle();
    }
}
