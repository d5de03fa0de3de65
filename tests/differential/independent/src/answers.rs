//! What a call answers: a result or a refusal, and how the C interface packs either into 32 or 64 bits.

use core::num::NonZeroU32;

/// A refusal's number, 1 to 13, by document 01's list. No call gives 12.
#[derive(Clone, Copy, Debug, PartialEq, Eq, PartialOrd, Ord)]
pub struct Refusal(NonZeroU32);

pub type Answer<T> = Result<T, Refusal>;

impl Refusal {
    pub const SIZE: Refusal = Refusal::of(1);
    pub const SCRIPT: Refusal = Refusal::of(2);
    pub const TAKEN: Refusal = Refusal::of(3);
    pub const ABSENT: Refusal = Refusal::of(4);
    pub const SIDE: Refusal = Refusal::of(5);
    pub const SLOT: Refusal = Refusal::of(6);
    pub const DARK: Refusal = Refusal::of(7);
    pub const FIELD: Refusal = Refusal::of(8);
    pub const TOO_BIG: Refusal = Refusal::of(9);
    pub const NO_ROOM: Refusal = Refusal::of(10);
    pub const NOT_NOW: Refusal = Refusal::of(11);
    pub const TORN: Refusal = Refusal::of(13);

    const fn of(number: u32) -> Refusal {
        match NonZeroU32::new(number) {
            Some(number) => Refusal(number),
            None => panic!("a refusal is not 0"),
        }
    }

    #[inline(always)]
    pub const fn number(self) -> u32 {
        self.0.get()
    }
}

/// A call refused. It marks the way to it as seldom taken.
#[inline(always)]
pub fn refuse<T>(refusal: Refusal) -> Answer<T> {
    core::hint::cold_path();
    Err(refusal)
}

/// What was found, or refused 13.
#[inline(always)]
pub fn or_torn<T>(found: Option<T>) -> Answer<T> {
    match found {
        Some(found) => Ok(found),
        None => refuse(Refusal::TORN),
    }
}

/// Phases, as the look answers them and as the control word holds them.
pub const IDLE: u32 = 0;
pub const SYNC1: u32 = 1;
pub const SYNC2: u32 = 2;
pub const MARK: u32 = 3;
pub const SWEEP: u32 = 4;

/// The counts of a record.
#[derive(Clone, Copy, Debug, PartialEq, Eq)]
pub struct Shape {
    pub pointers: u32,
    pub values: u32,
}

/// What a step did.
#[derive(Clone, Copy, Debug, PartialEq, Eq)]
pub enum Step {
    Idle,
    Waiting(u32),
    Moved,
    Traced,
    Swept { segment: u32, freed: u32 },
    Done,
}

/// A result as the 32 bits that the C interface puts above the refusal.
pub trait Result32 {
    fn bits(self) -> u32;
}

impl Result32 for u32 {
    #[inline(always)]
    fn bits(self) -> u32 {
        self
    }
}

impl Result32 for bool {
    #[inline(always)]
    fn bits(self) -> u32 {
        u32::from(self)
    }
}

impl Result32 for Shape {
    #[inline(always)]
    fn bits(self) -> u32 {
        self.pointers << 16 | self.values
    }
}

impl Result32 for Step {
    #[inline(always)]
    fn bits(self) -> u32 {
        match self {
            Step::Idle => 0,
            Step::Waiting(mutators) => 1 | mutators << 8,
            Step::Moved => 2,
            Step::Traced => 3,
            Step::Swept { segment, freed } => 4 | segment << 8 | freed << 16,
            Step::Done => 5,
        }
    }
}

/// The 32 bits of a call without a result: 0 or the refusal.
#[inline(always)]
pub fn pack(answer: Answer<()>) -> u32 {
    match answer {
        Ok(()) => 0,
        Err(refusal) => refusal.number(),
    }
}

/// The 64 bits of a call with a result: the result above 0, or 0 above the refusal.
#[inline(always)]
pub fn pack_result<T: Result32>(answer: Answer<T>) -> u64 {
    match answer {
        Ok(result) => u64::from(result.bits()) << 32,
        Err(refusal) => u64::from(refusal.number()),
    }
}
