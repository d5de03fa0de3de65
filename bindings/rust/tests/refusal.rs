//! The error itself: numbers, words, sentences, conversions.

use std::collections::HashSet;
use std::error::Error;

use borvukhai::{Heap, MutatorId, NoRefusal, Refusal, Root, SegmentSize, Segments};

const TABLE: [(u32, &str); 12] = [
    (1, "size"),
    (2, "script"),
    (3, "taken"),
    (4, "absent"),
    (5, "side"),
    (6, "slot"),
    (7, "dark"),
    (8, "field"),
    (9, "too big"),
    (10, "no room"),
    (11, "not now"),
    (13, "torn"),
];

#[test]
fn numbers_and_words_of_document_01() {
    for (refusal, (number, word)) in Refusal::ALL.into_iter().zip(TABLE) {
        assert_eq!(refusal.number(), number);
        assert_eq!(u32::from(refusal), number);
        assert_eq!(Refusal::try_from(number), Ok(refusal));
        assert_eq!(refusal.word(), word);
    }
}

#[test]
fn second_names() {
    assert_eq!([Refusal::BAD_MUTATOR, Refusal::BAD_ROOT, Refusal::NIL].map(Refusal::number), [2, 6, 7]);
}

#[test]
fn other_numbers_are_no_refusal() {
    for number in [0, 12, 14, u32::MAX] {
        assert_eq!(Refusal::try_from(number), Err(NoRefusal(number)));
        assert_eq!(Refusal::from_number(number), None);
    }
    assert_eq!(NoRefusal(14).to_string(), "14 is not the number of a refusal, 1 to 11 or 13");
}

#[test]
fn a_sentence_of_its_own_for_each() {
    let sentences: HashSet<String> = Refusal::ALL.iter().map(Refusal::to_string).collect();
    assert_eq!(sentences.len(), TABLE.len());
    assert!(sentences.iter().all(|sentence| !sentence.is_empty() && !sentence.ends_with('.')));
}

fn opened(words: &mut [u32]) -> Result<(), Box<dyn Error + '_>> {
    Heap::open(Segments::MIN, SegmentSize::Kib32, words)?;
    Ok(())
}

#[test]
fn an_error_like_others() {
    let error: Box<dyn Error + Send + Sync> = Refusal::NoRoom.into();
    assert_eq!(error.downcast_ref::<Refusal>(), Some(&Refusal::NoRoom));
    assert_eq!(opened(&mut [0; 3]).unwrap_err().to_string(), Refusal::Size.to_string());
}

#[test]
fn numbers_of_mutators_and_roots() {
    assert_eq!(MutatorId::all().map(u32::from).collect::<Vec<_>>(), (0..32).collect::<Vec<_>>());
    assert_eq!(Root::all().map(u32::from).collect::<Vec<_>>(), (0..16).collect::<Vec<_>>());
    assert_eq!((Root::R0.number(), Root::R9.number(), Root::R15.number()), (0, 9, 15));
    for number in [32, u32::MAX] {
        assert_eq!(MutatorId::try_from(number), Err(Refusal::Script));
    }
    for number in [16, u32::MAX] {
        assert_eq!(Root::try_from(number), Err(Refusal::Slot));
    }
}
