//! The numbers that name a mutator and a root, checked once, and the shape of a record.

use crate::refusal::Refusal;

/// The number of a mutator (document 01: script), 0 to 31.
#[derive(Clone, Copy, Debug, PartialEq, Eq, PartialOrd, Ord, Hash)]
pub struct MutatorId(u8);

impl MutatorId {
    /// How many there are.
    pub const COUNT: usize = 32;

    /// A mutator's number, if it is 0 to 31.
    pub const fn new(number: u32) -> Option<MutatorId> {
        if number < MutatorId::COUNT as u32 { Some(MutatorId(number as u8)) } else { None }
    }

    /// Every mutator's number, in order.
    pub fn all() -> impl ExactSizeIterator<Item = MutatorId> + DoubleEndedIterator + Clone {
        (0..MutatorId::COUNT as u8).map(MutatorId)
    }

    /// The number itself.
    #[inline]
    pub const fn number(self) -> u32 {
        self.0 as u32
    }
}

impl TryFrom<u32> for MutatorId {
    type Error = Refusal;

    /// Refused [`Script`](Refusal::Script), as a call with this number is.
    fn try_from(number: u32) -> Result<MutatorId, Refusal> {
        MutatorId::new(number).ok_or(Refusal::Script)
    }
}

impl From<MutatorId> for u32 {
    fn from(mutator: MutatorId) -> u32 {
        mutator.number()
    }
}

/// A root of a mutator (document 01: slot), 0 to 15: nil, or a record. Records are named by roots alone; a reference never leaves the
/// heap.
///
/// A program names its roots once, as it would registers:
///
/// ```
/// use borvukhai::Root;
///
/// const QUEUE: Root = Root::new(0).unwrap();
/// assert_eq!(QUEUE, Root::R0);
/// ```
#[derive(Clone, Copy, Debug, PartialEq, Eq, PartialOrd, Ord, Hash)]
pub struct Root(u8);

macro_rules! roots {
    ($($name:ident $number:literal)*) => {
        $(#[doc = concat!("Root ", $number, ".")]
        pub const $name: Root = Root($number);)*
    };
}

impl Root {
    /// How many a mutator has.
    pub const COUNT: usize = 16;

    roots! { R0 0 R1 1 R2 2 R3 3 R4 4 R5 5 R6 6 R7 7 R8 8 R9 9 R10 10 R11 11 R12 12 R13 13 R14 14 R15 15 }

    /// A root's number, if it is 0 to 15.
    pub const fn new(number: u32) -> Option<Root> {
        if number < Root::COUNT as u32 { Some(Root(number as u8)) } else { None }
    }

    /// Every root, in order.
    pub fn all() -> impl ExactSizeIterator<Item = Root> + DoubleEndedIterator + Clone {
        (0..Root::COUNT as u8).map(Root)
    }

    /// The number itself.
    #[inline]
    pub const fn number(self) -> u32 {
        self.0 as u32
    }
}

impl TryFrom<u32> for Root {
    type Error = Refusal;

    /// Refused [`Slot`](Refusal::Slot), as a call with this number is.
    fn try_from(number: u32) -> Result<Root, Refusal> {
        Root::new(number).ok_or(Refusal::Slot)
    }
}

impl From<Root> for u32 {
    fn from(root: Root) -> u32 {
        root.number()
    }
}

/// The counts of a record: pointers (document 01: links) and values (document 01: numbers), numbered from 0 each. A record has at most
/// 4,095 of them together.
#[derive(Clone, Copy, Debug, Default, PartialEq, Eq, Hash)]
pub struct Shape {
    /// Pointers: nil or another record.
    pub pointers: u32,
    /// Values: any 32 bits.
    pub values: u32,
}

impl Shape {
    /// A shape. Nothing is checked here: a make with too many fields is refused [`TooBig`](Refusal::TooBig).
    pub const fn new(pointers: u32, values: u32) -> Shape {
        Shape { pointers, values }
    }

    /// The class of a record of this shape, 3 to 14: its block has 2^class bytes. None where a make is refused
    /// [`TooBig`](Refusal::TooBig).
    pub const fn class(self) -> Option<u32> {
        let mut class = 3;
        while class <= 14 {
            if self.pointers as u64 + (self.values as u64) < (1 << class) / 4 {
                return Some(class);
            }
            class += 1;
        }
        None
    }

    /// The upper 32 bits of the answer of shape: pointers above values, 16 bits each.
    pub(crate) const fn unpack(bits: u32) -> Shape {
        Shape { pointers: bits >> 16, values: bits & 0xffff }
    }
}
