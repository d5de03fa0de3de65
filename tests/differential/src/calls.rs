//! The calls of the C interface as data: what is called, with which numbers, and over which lengths.
//! Answers are 64 bits for every call; those of 32 bits are widened.

use crate::layout::Geometry;

#[derive(Clone, Copy, PartialEq, Eq, Debug)]
pub enum Kind {
    Open,
    Attach,
    Spawn,
    Detach,
    Make,
    Load,
    Store,
    Put,
    Copy,
    Clear,
    Check,
    Leave,
    Enter,
    Start,
    Step,
    Get,
    Same,
    Shape,
    Phase,
    States,
    Sheet,
    Examine,
}

pub use Kind::*;

pub const ALL_KINDS: [Kind; 22] = [
    Open, Attach, Spawn, Detach, Make, Load, Store, Put, Copy, Clear, Check, Leave, Enter, Start, Step, Get, Same, Shape, Phase, States, Sheet,
    Examine,
];
pub const KINDS: usize = ALL_KINDS.len();

pub const SIZE: u32 = 1;
pub const NO_ROOM: u32 = 10;
pub const NOT_NOW: u32 = 11;
pub const TORN: u32 = 13;

pub const IDLE: u32 = 0;
pub const SYNC1: u32 = 1;
pub const SYNC2: u32 = 2;
pub const MARK: u32 = 3;
pub const SWEEP: u32 = 4;

pub const STEP_KINDS: [&str; 6] = ["Idle", "Waiting", "Moved", "Traced", "Swept", "Done"];
pub const WAITING: u32 = 1;
pub const MOVED: u32 = 2;
pub const TRACED: u32 = 3;
pub const SWEPT: u32 = 4;
pub const DONE: u32 = 5;

/// A length that a call names for a slice, seen from the right one.
#[derive(Clone, Copy, PartialEq, Eq, Debug)]
pub enum Length {
    Right,
    Zero,
    /// The right length of another count or size.
    Of(Geometry),
    Longer(u32),
    Shorter(u32),
    /// The length that the memory, or the output of the look at the states, had before request No. 3; at 32 KiB shorter by as much.
    Former,
}

#[derive(Clone, Copy, PartialEq, Eq, Debug)]
pub struct Call {
    pub kind: Kind,
    pub args: [u32; 4],
    /// The count of segments and their size that it names, which may be none.
    pub named: Geometry,
    pub length: Length,
    /// The length of the output of States or of Sheet, or the scratch of Examine.
    pub extra: Length,
}

pub fn refusal(answer: u64) -> u32 {
    answer as u32
}

pub fn result(answer: u64) -> u32 {
    (answer >> 32) as u32
}

pub fn step_kind(answer: u64) -> u32 {
    (answer >> 32) as u32 & 0xff
}

/// Of Waiting the mutators waited for, of Swept the segment.
pub fn step_number(answer: u64) -> u32 {
    (answer >> 40) as u32 & 0xff
}

pub fn step_freed(answer: u64) -> u32 {
    (answer >> 48) as u32
}

impl Kind {
    pub fn arguments(self) -> usize {
        match self {
            Open | Start | Step | Phase | States | Sheet | Examine => 0,
            Attach | Detach | Check | Leave | Enter => 1,
            Clear | Shape => 2,
            Spawn | Copy | Get | Same => 3,
            Make | Load | Store | Put => 4,
        }
    }

    pub fn is_look(self) -> bool {
        matches!(self, Phase | States | Sheet | Examine)
    }

    /// A call that document 01 calls a script call.
    pub fn is_mutators(self) -> bool {
        !self.is_look() && !matches!(self, Open | Start | Step)
    }

    /// A call that is lent the memory to read only.
    pub fn only_reads(self) -> bool {
        self.is_look() || matches!(self, Get | Same | Shape)
    }

    /// The refusals that the header lists for the call.
    pub fn may_refuse(self) -> &'static [u32] {
        match self {
            Open | Examine => &[1],
            Attach => &[1, 2, 3, 11, 13],
            Spawn => &[1, 2, 3, 4, 5, 6, 11, 13],
            Detach => &[1, 2, 4, 5, 11, 13],
            Make => &[1, 2, 4, 5, 6, 9, 10, 13],
            Load | Store | Put | Get => &[1, 2, 4, 5, 6, 7, 8, 13],
            Copy | Clear | Same => &[1, 2, 4, 5, 6, 13],
            Shape => &[1, 2, 4, 5, 6, 7, 13],
            Check | Leave | Enter => &[1, 2, 4, 5, 13],
            Start => &[1, 11, 13],
            Step | Phase | States | Sheet => &[1, 13],
        }
    }
}

impl Call {
    pub fn new(kind: Kind, named: Geometry, args: [u32; 4]) -> Call {
        Call { kind, args, named, length: Length::Right, extra: Length::Right }
    }

    pub fn has_extra(&self) -> bool {
        matches!(self.kind, States | Sheet | Examine)
    }

    /// Whether the call over a heap of this count and size must be refused 1.
    pub fn wrong_size(&self, g: Geometry) -> bool {
        let extra = self.has_extra() && self.extra != Length::Right;
        self.named != g || self.length != Length::Right || extra
    }
}

impl std::fmt::Display for Call {
    fn fmt(&self, out: &mut std::fmt::Formatter<'_>) -> std::fmt::Result {
        let name = format!("{:?}", self.kind).to_lowercase();
        let args: Vec<String> = self.args[..self.kind.arguments()].iter().map(u32::to_string).collect();
        write!(out, "{name}({}) n={} kib={}", args.join(", "), self.named.segments, self.named.kib)?;
        if self.length != Length::Right || self.extra != Length::Right {
            write!(out, " length {:?} extra {:?}", self.length, self.extra)?;
        }
        Ok(())
    }
}

/// An answer in words, for a report.
pub fn answer_words(kind: Kind, answer: u64) -> String {
    let refused = refusal(answer);
    if refused != 0 {
        return format!("refused {refused} ({answer:#018x})");
    }
    if kind == Step {
        let name = STEP_KINDS.get(step_kind(answer) as usize).unwrap_or(&"unknown");
        return format!("{name} {} {} ({answer:#018x})", step_number(answer), step_freed(answer));
    }
    format!("ok {} ({answer:#018x})", result(answer))
}
