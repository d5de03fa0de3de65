//! The record heap and its incremental collector, written from document 01 and its change requests alone.
//!
//! It shares no code, no layout and no specification with the verified library: what the two answer alike, those papers say. The plain
//! functions take the segment count and size, the lent slice and the call's numbers; `ffi` exports the same with the C interface's
//! signatures and the prefix `independent_`. No function panics: memory that is not its own ends a call with refusal 13 or with some answer.

mod answers;
mod bitmap;
mod calls;
mod classes;
mod collector;
mod examine;
pub mod ffi;
mod layout;
mod looks;
mod mutators;
mod segments;
mod sheet;
mod size;
mod trace;

pub use answers::{pack, pack_result, Answer, Refusal, Result32, Shape, Step};
pub use answers::{IDLE, MARK, SWEEP, SYNC1, SYNC2};
pub use calls::{clear, copy, get, load, make, put, same, shape, store};
pub use collector::{start, step};
pub use examine::examine;
pub use layout::{length, open, scratch_length, sheet_length, states_length};
pub use looks::{phase, states};
pub use mutators::{attach, check, detach, enter, leave, spawn};
pub use segments::{CONDEMNED, FREE, FULL, HELD, PART};
pub use sheet::sheet;
