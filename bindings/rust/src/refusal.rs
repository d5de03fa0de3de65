//! The refusals of document 01, as this crate's error.

use core::fmt;

/// Why a call was refused, by document 01's words and numbers. The lowest number that applies is given.
///
/// On memory that passes the examination a refused call changes no word, and [`Torn`](Refusal::Torn) does not come. 12 is a number that
/// no call gives: a start while no segment is full or part is not refused.
#[derive(Clone, Copy, Debug, PartialEq, Eq, PartialOrd, Ord, Hash)]
#[repr(u32)]
pub enum Refusal {
    /// The segment count is not 1 to 256, the segment size is neither 16 nor 32 KiB, or a slice is not of its length.
    Size = 1,
    /// A mutator's number over 31.
    Script = 2,
    /// An attach or a spawn onto a number in use.
    Taken = 3,
    /// A mutator that must be attached is not.
    Absent = 4,
    /// An enter while inside; any other call by a mutator, or for a parent, that is outside.
    Side = 5,
    /// A root's number over 15.
    Slot = 6,
    /// Nil in the root whose record is wanted.
    Dark = 7,
    /// The record has no such pointer or value.
    Field = 8,
    /// A make with more than 4,095 pointers and values together.
    TooBig = 9,
    /// A make for which no segment of the class has room for this mutator, and none is free; one that is condemned is no
    /// room before its sweep. Memory of zeros that was never opened, taken up without examination, looks so too.
    NoRoom = 10,
    /// An attach, a spawn or a detach in a handshake, or a start while a cycle runs.
    NotNow = 11,
    /// Memory that fails the examination led the call astray.
    Torn = 13,
}

/// What a call of this crate answers: a result, or a [`Refusal`].
pub type Result<T> = core::result::Result<T, Refusal>;

impl Refusal {
    /// [`Script`](Refusal::Script) by this crate's own term, as the header's `BORVUKHAI_BAD_MUTATOR`.
    pub const BAD_MUTATOR: Refusal = Refusal::Script;
    /// [`Slot`](Refusal::Slot) by this crate's own term, as the header's `BORVUKHAI_BAD_ROOT`.
    pub const BAD_ROOT: Refusal = Refusal::Slot;
    /// [`Dark`](Refusal::Dark) by this crate's own term, as the header's `BORVUKHAI_NIL`.
    pub const NIL: Refusal = Refusal::Dark;

    /// Every refusal, in the order of the numbers.
    pub const ALL: [Refusal; 12] = [
        Refusal::Size,
        Refusal::Script,
        Refusal::Taken,
        Refusal::Absent,
        Refusal::Side,
        Refusal::Slot,
        Refusal::Dark,
        Refusal::Field,
        Refusal::TooBig,
        Refusal::NoRoom,
        Refusal::NotNow,
        Refusal::Torn,
    ];

    /// The number in document 01's table, 1 to 11 or 13.
    pub const fn number(self) -> u32 {
        self as u32
    }

    /// The refusal of a number, if it is 1 to 11 or 13.
    pub const fn from_number(number: u32) -> Option<Refusal> {
        match number {
            1..=11 => Some(Refusal::ALL[number as usize - 1]),
            13 => Some(Refusal::Torn),
            _ => None,
        }
    }

    /// The word in document 01's table.
    pub const fn word(self) -> &'static str {
        match self {
            Refusal::Size => "size",
            Refusal::Script => "script",
            Refusal::Taken => "taken",
            Refusal::Absent => "absent",
            Refusal::Side => "side",
            Refusal::Slot => "slot",
            Refusal::Dark => "dark",
            Refusal::Field => "field",
            Refusal::TooBig => "too big",
            Refusal::NoRoom => "no room",
            Refusal::NotNow => "not now",
            Refusal::Torn => "torn",
        }
    }

    const fn sentence(self) -> &'static str {
        match self {
            Refusal::Size => {
                "the segment count is not 1 to 256, the segment size is neither 16 nor 32 KiB, or a slice is not of its length"
            }
            Refusal::Script => "the mutator's number is over 31",
            Refusal::Taken => "the mutator's number is in use",
            Refusal::Absent => "the mutator is not attached",
            Refusal::Side => "the mutator is outside where it must be inside, or enters while it is inside",
            Refusal::Slot => "the root's number is over 15",
            Refusal::Dark => "the root whose record is wanted is nil",
            Refusal::Field => "the record has no such pointer or value",
            Refusal::TooBig => "a record has at most 4,095 pointers and values together",
            Refusal::NoRoom => "no segment of the record's class has room for this mutator, and none is free",
            Refusal::NotNow => "a handshake runs, or a cycle that was to start runs already",
            Refusal::Torn => "the memory fails the examination and led the call astray",
        }
    }
}

impl fmt::Display for Refusal {
    fn fmt(&self, f: &mut fmt::Formatter<'_>) -> fmt::Result {
        f.write_str(self.sentence())
    }
}

impl core::error::Error for Refusal {}

/// A number that is no refusal's, kept in the error of the conversion.
#[derive(Clone, Copy, Debug, PartialEq, Eq)]
pub struct NoRefusal(pub u32);

impl fmt::Display for NoRefusal {
    fn fmt(&self, f: &mut fmt::Formatter<'_>) -> fmt::Result {
        write!(f, "{} is not the number of a refusal, 1 to 11 or 13", self.0)
    }
}

impl core::error::Error for NoRefusal {}

impl TryFrom<u32> for Refusal {
    type Error = NoRefusal;

    fn try_from(number: u32) -> core::result::Result<Refusal, NoRefusal> {
        Refusal::from_number(number).ok_or(NoRefusal(number))
    }
}

impl From<Refusal> for u32 {
    fn from(refusal: Refusal) -> u32 {
        refusal.number()
    }
}

/// A refusal that hands the lent memory back: what [`Heap::open`](crate::Heap::open) and its siblings answer.
///
/// `?` turns it into the plain [`Refusal`] where the memory is not wanted.
pub struct Refused<M> {
    /// Why.
    pub refusal: Refusal,
    /// The memory that was to become a heap, unchanged.
    pub memory: M,
}

impl<M> fmt::Debug for Refused<M> {
    fn fmt(&self, f: &mut fmt::Formatter<'_>) -> fmt::Result {
        f.debug_struct("Refused").field("refusal", &self.refusal).finish_non_exhaustive()
    }
}

impl<M> fmt::Display for Refused<M> {
    fn fmt(&self, f: &mut fmt::Formatter<'_>) -> fmt::Result {
        self.refusal.fmt(f)
    }
}

impl<M> core::error::Error for Refused<M> {}

impl<M> From<Refused<M>> for Refusal {
    fn from(refused: Refused<M>) -> Refusal {
        refused.refusal
    }
}
