//! Each refusal number of document 01, from every call of the raw layer that can give it. On consistent memory a refusal changes no word.

mod common;

use borvukhai::{Refusal, Result, SegmentSize, Step, raw};
use common::{ONE, SHEET, STATES, at, fresh, full, off_heap, scratch, torn_classes, torn_counts};

const MANY: u32 = u32::MAX;

/// A count of segments and their size, as a call names them.
type Named = (u32, u32);

/// A mutator's call with a count and a size, a mutator, one root for all its roots and one field. A spawn's parent is mutator 0.
type Call = fn(Named, &mut [u32], u32, u32, u32) -> Result<()>;

const ATTACH: Call = |(n, kib), words, mutator, _, _| raw::attach(n, kib, words, mutator);
const SPAWN: Call = |(n, kib), words, mutator, root, _| raw::spawn(n, kib, words, mutator, 0, root);
const DETACH: Call = |(n, kib), words, mutator, _, _| raw::detach(n, kib, words, mutator);
const MAKE: Call = |(n, kib), words, mutator, root, _| raw::make(n, kib, words, mutator, root, 1, 600);
const MAKE_13: Call = |(n, kib), words, mutator, root, _| raw::make(n, kib, words, mutator, root, 1, 2046);
const MAKE_14: Call = |(n, kib), words, mutator, root, _| raw::make(n, kib, words, mutator, root, 1, 4094);
const LOAD: Call = |(n, kib), words, mutator, root, field| raw::load(n, kib, words, mutator, root, root, field);
const STORE: Call = |(n, kib), words, mutator, root, field| raw::store(n, kib, words, mutator, root, field, root);
const PUT: Call = |(n, kib), words, mutator, root, field| raw::put(n, kib, words, mutator, root, field, 1);
const GET: Call = |(n, kib), words, mutator, root, field| raw::get(n, kib, words, mutator, root, field).map(drop);
const COPY: Call = |(n, kib), words, mutator, root, _| raw::copy(n, kib, words, mutator, root, root);
const CLEAR: Call = |(n, kib), words, mutator, root, _| raw::clear(n, kib, words, mutator, root);
const SAME: Call = |(n, kib), words, mutator, root, _| raw::same(n, kib, words, mutator, root, root).map(drop);
const SHAPE: Call = |(n, kib), words, mutator, root, _| raw::shape(n, kib, words, mutator, root).map(drop);
const CHECK: Call = |(n, kib), words, mutator, _, _| raw::check(n, kib, words, mutator);
const LEAVE: Call = |(n, kib), words, mutator, _, _| raw::leave(n, kib, words, mutator);
const ENTER: Call = |(n, kib), words, mutator, _, _| raw::enter(n, kib, words, mutator);

/// The calls of a mutator that must be attached, but for enter those of one that must be inside.
const INSIDE: [Call; 12] = [DETACH, MAKE, LOAD, STORE, PUT, GET, COPY, CLEAR, SAME, SHAPE, CHECK, LEAVE];

/// Memory with its size.
struct Lent {
    size: SegmentSize,
    words: Vec<u32>,
}

impl Lent {
    /// One segment of each size.
    fn of(words: fn(SegmentSize) -> Vec<u32>) -> [Lent; 2] {
        SegmentSize::ALL.map(|size| Lent { size, words: words(size) })
    }

    /// The count and the size of the opening.
    fn named(&self) -> Named {
        (1, self.size.kib())
    }

    fn call(&mut self, call: Call, (mutator, root, field): (u32, u32, u32)) -> Result<()> {
        call(self.named(), &mut self.words, mutator, root, field)
    }

    /// The call is refused so, and no word has changed.
    fn refused(&mut self, call: Call, numbers: (u32, u32, u32), refusal: Refusal) {
        let before = self.words.clone();
        assert_eq!(self.call(call, numbers), Err(refusal));
        assert!(self.words == before, "a word has changed");
    }
}

/// The calls that name no mutator, all refused Size; outputs and scratch are of the lengths that the count and the size name, and stay.
fn others_refused_size((n, kib): Named, words: &mut [u32]) {
    assert_eq!(raw::open(n, kib, words), Err(Refusal::Size));
    assert_eq!(raw::start(n, kib, words), Err(Refusal::Size));
    assert_eq!(raw::step(n, kib, words), Err(Refusal::Size));
    assert_eq!(raw::phase(n, kib, words), Err(Refusal::Size));
    let (mut output, mut scratch) = (vec![9; raw::states_length(n, kib)], vec![9; raw::scratch_length(n, kib)]);
    assert_eq!(raw::states(n, kib, words, &mut output), Err(Refusal::Size));
    assert_eq!(raw::examine(n, kib, words, &mut scratch), Err(Refusal::Size));
    assert!(output.iter().chain(&scratch).all(|&word| word == 9), "output or scratch has changed");
    let mut sheet = vec![9; raw::sheet_length(n, kib)];
    assert_eq!(raw::sheet(n, kib, words, &mut sheet), Err(Refusal::Size));
    assert!(sheet.iter().all(|&byte| byte == 9), "the sheet has changed");
}

fn all_refused_size(named: Named, words: &mut [u32]) {
    let before = words.to_vec();
    for call in INSIDE.into_iter().chain([ATTACH, SPAWN, ENTER]) {
        assert_eq!(call(named, words, MANY, MANY, MANY), Err(Refusal::Size));
        assert_eq!(call(named, words, 0, 0, 0), Err(Refusal::Size));
    }
    others_refused_size(named, words);
    assert!(words == before, "a word has changed");
}

#[test]
fn number_1_size() {
    for Lent { size, mut words } in Lent::of(full) {
        for segments in [0, 2, 257, MANY] {
            all_refused_size((segments, size.kib()), &mut words);
        }
        let (named, short) = ((1, size.kib()), words.len() - 1);
        all_refused_size(named, &mut words[..short]);
        words.push(0);
        all_refused_size(named, &mut words);
        all_refused_size(named, &mut []);
        all_refused_size((0, size.kib()), &mut []);
    }
}

/// A size that is neither 16 nor 32, and the other one, over memory of either size; no count makes that right.
#[test]
fn number_1_another_segment_size() {
    for Lent { size, mut words } in Lent::of(full) {
        for kib in [0, 1, 15, 17, 24, 31, 33, 48, 64, 16_384, 32_768, MANY] {
            all_refused_size((1, kib), &mut words);
        }
        for other in SegmentSize::ALL.into_iter().filter(|&other| other != size) {
            for segments in [0, 1, 2, 3, 256, 257] {
                all_refused_size((segments, other.kib()), &mut words);
            }
        }
    }
}

/// The lengths of layouts 2 and 3, which programs compiled for them still lend; and, of segments of 32 KiB, which those had not, lengths that
/// are shorter by as much.
#[test]
fn number_1_size_of_the_layouts_before() {
    for segments in [1, 2, 3, 12, 255, 256] {
        let n = segments as usize;
        for kib in [16, 32] {
            all_refused_size((segments, kib), &mut vec![0; 6290 * n + 1051]);
            all_refused_size((segments, kib), &mut vec![0; 6292 * n + 1053]);
            all_refused_size((segments, kib), &mut vec![0; 12_564 * n + 1051]);
            all_refused_size((segments, kib), &mut vec![0; 12_566 * n + 1053]);
        }
    }
}

#[test]
fn number_1_size_of_output_and_scratch() {
    for Lent { size, words } in Lent::of(full) {
        for length in [0, 4, STATES - 1, STATES + 1] {
            let mut output = vec![9; length];
            assert_eq!(raw::states(1, size.kib(), &words, &mut output), Err(Refusal::Size));
            assert!(output.iter().all(|&word| word == 9));
        }
        for length in [0, STATES, 4 * STATES, SHEET - 1, SHEET + 1, 2 * SHEET] {
            let mut output = vec![9; length];
            assert_eq!(raw::sheet(1, size.kib(), &words, &mut output), Err(Refusal::Size));
            assert!(output.iter().all(|&byte| byte == 9));
        }
        let [right, other] = SegmentSize::ALL.map(|of| ONE.scratch_length(of));
        let (right, other) = if size == SegmentSize::Kib16 { (right, other) } else { (other, right) };
        for length in [0, right - 1, right + 1, other] {
            let mut scratch = vec![9; length];
            assert_eq!(raw::examine(1, size.kib(), &words, &mut scratch), Err(Refusal::Size));
            assert!(scratch.iter().all(|&word| word == 9));
        }
    }
}

#[test]
fn number_2_script() {
    for mut lent in Lent::of(full) {
        for call in INSIDE.into_iter().chain([ATTACH, SPAWN, ENTER]) {
            lent.refused(call, (32, MANY, MANY), Refusal::Script);
            lent.refused(call, (MANY, 0, 0), Refusal::Script);
        }
        assert_eq!(raw::spawn(1, lent.size.kib(), &mut lent.words, 1, 32, 0), Err(Refusal::Script));
    }
}

#[test]
fn number_3_taken() {
    for mut lent in Lent::of(full) {
        lent.refused(ATTACH, (0, 0, 0), Refusal::Taken);
        lent.refused(SPAWN, (0, MANY, 0), Refusal::Taken);
    }
}

#[test]
fn number_4_absent() {
    for mut lent in Lent::of(full) {
        for call in INSIDE.into_iter().chain([ENTER]) {
            lent.refused(call, (31, MANY, MANY), Refusal::Absent);
        }
        assert_eq!(raw::spawn(1, lent.size.kib(), &mut lent.words, 1, 31, MANY), Err(Refusal::Absent));
    }
}

#[test]
fn number_5_side() {
    for mut lent in Lent::of(full) {
        lent.refused(ENTER, (0, 0, 0), Refusal::Side);
        lent.call(LEAVE, (0, 0, 0)).unwrap();
        for call in INSIDE {
            lent.refused(call, (0, MANY, MANY), Refusal::Side);
        }
        lent.refused(SPAWN, (1, MANY, 0), Refusal::Side);
        assert_eq!(lent.call(ENTER, (0, 0, 0)), Ok(()));
    }
}

#[test]
fn number_6_slot() {
    for mut lent in Lent::of(full) {
        for call in [MAKE, LOAD, STORE, PUT, GET, COPY, CLEAR, SAME, SHAPE] {
            lent.refused(call, (0, 16, MANY), Refusal::Slot);
            lent.refused(call, (0, MANY, 0), Refusal::Slot);
        }
        lent.refused(SPAWN, (1, 16, 0), Refusal::Slot);
        let (kib, words) = (lent.size.kib(), &mut lent.words);
        assert_eq!(raw::load(1, kib, words, 0, 16, 0, 0), Err(Refusal::Slot));
        assert_eq!(raw::store(1, kib, words, 0, 0, 0, 16), Err(Refusal::Slot));
        assert_eq!(raw::copy(1, kib, words, 0, 0, 16), Err(Refusal::Slot));
        assert_eq!(raw::same(1, kib, words, 0, 0, 16), Err(Refusal::Slot));
    }
}

#[test]
fn number_7_dark() {
    for mut lent in Lent::of(full) {
        for call in [LOAD, STORE, PUT, GET, SHAPE] {
            lent.refused(call, (0, 15, MANY), Refusal::Dark);
        }
    }
}

#[test]
fn number_8_field() {
    for (call, first) in [(LOAD, 1), (STORE, 1), (PUT, 600), (GET, 600)] {
        for mut lent in Lent::of(full) {
            lent.refused(call, (0, 0, first), Refusal::Field);
            lent.refused(call, (0, 0, MANY), Refusal::Field);
            assert_eq!(lent.call(call, (0, 0, first - 1)), Ok(()));
        }
    }
}

#[test]
fn number_9_too_big() {
    for Lent { size, mut words } in Lent::of(fresh) {
        let before = words.clone();
        for (pointers, values) in [(4095, 1), (0, 4096), (MANY, 2), (2, MANY), (MANY, MANY)] {
            assert_eq!(raw::make(1, size.kib(), &mut words, 0, 0, pointers, values), Err(Refusal::TooBig));
        }
        assert!(words == before, "a word has changed");
        assert_eq!(raw::make(1, size.kib(), &mut words, 0, 0, 4000, 95), Ok(()));
    }
}

/// 4,096 fields where a lower number applies too, and where 10 would.
#[test]
fn number_9_in_the_order() {
    let big: Call = |(n, kib), words, mutator, root, _| raw::make(n, kib, words, mutator, root, 4095, 1);
    for mut lent in Lent::of(full) {
        assert_eq!(big((0, lent.size.kib()), &mut lent.words, 32, 16, 0), Err(Refusal::Size));
        assert_eq!(big((1, 48), &mut lent.words, 32, 16, 0), Err(Refusal::Size));
        lent.refused(big, (32, 16, 0), Refusal::Script);
        lent.refused(big, (31, 16, 0), Refusal::Absent);
        lent.refused(big, (0, 16, 0), Refusal::Slot);
        lent.refused(big, (0, 0, 0), Refusal::TooBig);
        assert_eq!(raw::make(1, lent.size.kib(), &mut lent.words, 0, 0, 4095, 0), Err(Refusal::NoRoom));
        lent.call(LEAVE, (0, 0, 0)).unwrap();
        lent.refused(big, (0, 16, 0), Refusal::Side);
    }
}

#[test]
fn number_10_no_room() {
    for mut lent in Lent::of(full) {
        lent.refused(MAKE, (0, 9, 0), Refusal::NoRoom);
        assert_eq!(raw::make(1, lent.size.kib(), &mut lent.words, 0, 9, 0, 0), Err(Refusal::NoRoom));
    }
}

const START: Call = |(n, kib), words, _, _, _| raw::start(n, kib, words);

#[test]
fn number_11_not_now() {
    for mut lent in Lent::of(full) {
        lent.call(START, (0, 0, 0)).unwrap();
        lent.refused(ATTACH, (1, 0, 0), Refusal::NotNow);
        lent.refused(SPAWN, (1, 0, 0), Refusal::NotNow);
        lent.refused(DETACH, (0, 0, 0), Refusal::NotNow);
        lent.refused(START, (0, 0, 0), Refusal::NotNow);
    }
}

/// In idle a start is ok: with nothing full, and over words that are no heap's.
#[test]
fn number_12_is_never_given() {
    for mut lent in Lent::of(fresh) {
        let fresh = lent.words.clone();
        lent.call(MAKE, (0, 0, 0)).unwrap();
        let held = lent.words.clone();
        let mut torn = fresh.clone();
        torn[at::tag(lent.size)] = 5;
        let zeros = vec![0; fresh.len()];
        for words in [fresh, held, torn, zeros] {
            lent.words = words;
            assert_eq!(lent.call(START, (0, 0, 0)), Ok(()));
        }
    }
}

/// The words of `full` with root 0 off the heap.
fn torn_root(size: SegmentSize) -> Vec<u32> {
    let mut words = full(size);
    words[at::ROOT] = off_heap(size);
    words
}

#[test]
fn number_13_torn_root() {
    for call in [LOAD, STORE, PUT, GET, SHAPE] {
        for mut lent in Lent::of(torn_root) {
            assert_eq!(lent.call(call, (0, 0, 0)), Err(Refusal::Torn));
        }
    }
}

#[test]
fn number_13_torn_root_in_a_handshake() {
    for call in [CHECK, LEAVE] {
        for mut lent in Lent::of(torn_root) {
            lent.call(START, (0, 0, 0)).unwrap();
            lent.call(CHECK, (0, 0, 0)).unwrap();
            assert_eq!(raw::step(1, lent.size.kib(), &mut lent.words), Ok(Step::Moved));
            assert_eq!(lent.call(call, (0, 0, 0)), Err(Refusal::Torn));
        }
    }
}

#[test]
fn number_13_torn_entries() {
    for call in [MAKE, DETACH] {
        for mut lent in Lent::of(fresh) {
            lent.words[at::HELD] = 2;
            assert_eq!(lent.call(call, (0, 0, 0)), Err(Refusal::Torn));
        }
    }
    for Lent { size, mut words } in Lent::of(fresh) {
        words[at::PHASE] = 5;
        assert_eq!(raw::step(1, size.kib(), &mut words), Err(Refusal::Torn));
        assert_eq!(raw::phase(1, size.kib(), &words), Err(Refusal::Torn));
        words[at::tag(size)] = 5;
        let mut output = [9; STATES];
        assert_eq!(raw::states(1, size.kib(), &words, &mut output), Err(Refusal::Torn));
        assert_eq!(output, [9; STATES]);
        let mut sheet = [9; SHEET];
        assert_eq!(raw::sheet(1, size.kib(), &words, &mut sheet), Err(Refusal::Torn));
        assert_eq!(sheet, [9; SHEET]);
    }
}

/// The sheet is torn where a class is none, or the counts are more than the blocks; refused, its output is unchanged.
#[test]
fn number_13_sheets() {
    for size in SegmentSize::ALL {
        for words in torn_classes(size).chain(torn_counts(size)) {
            let record = &words[at::tag(size)..at::tag(size) + STATES];
            let used = u64::from(record[4]) + u64::from(record[5]);
            let torn = record[0] != 0 && used > u64::from(size.blocks(record[1]));
            let mut sheet = [9; SHEET];
            assert_eq!(raw::sheet(1, size.kib(), &words, &mut sheet), if torn { Err(Refusal::Torn) } else { Ok(()) });
            assert_eq!(sheet == [9; SHEET], torn);
        }
    }
}

/// A class word that is another class's or none, or counts that are not right. Nothing panics, nothing is refused Size, and the
/// examination finds it.
#[test]
fn number_13_torn_segment_records() {
    let calls = INSIDE.into_iter().chain([ATTACH, SPAWN, ENTER, MAKE_13, MAKE_14]);
    for (size, torn) in
        SegmentSize::ALL.into_iter().flat_map(|size| torn_classes(size).chain(torn_counts(size)).map(move |torn| (size, torn)))
    {
        let kib = size.kib();
        for (call, mutator) in calls.clone().flat_map(|call| [(call, 0), (call, 1)]) {
            assert_ne!(call((1, kib), &mut torn.clone(), mutator, 0, 0), Err(Refusal::Size));
        }
        assert_ne!(raw::start(1, kib, &mut torn.clone()), Err(Refusal::Size));
        assert!(raw::phase(1, kib, &torn).is_ok());
        assert_ne!(raw::states(1, kib, &torn, &mut [0; STATES]), Err(Refusal::Size));
        assert_ne!(raw::sheet(1, kib, &torn, &mut [0; SHEET]), Err(Refusal::Size));
        assert_eq!(raw::examine(1, kib, &torn, &mut scratch(size)), Ok(false));
        let mut words = torn;
        for _ in 0..8 {
            assert_ne!(raw::step(1, kib, &mut words), Err(Refusal::Size));
        }
    }
}
