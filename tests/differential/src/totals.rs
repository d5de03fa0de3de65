//! Request No. 3: over any calls from an opening to the next, all blocks ever handed out, less all freed by sweeps, are the blocks in use.
//! Both totals are taken from the answers alone: the makes that were not refused, and the numbers that Swept gives.

use crate::calls::*;

pub struct Totals {
    handed_out: u64,
    freed: u64,
}

impl Totals {
    /// Of a list that begins with so many blocks in use: none where it begins with an opening.
    pub fn new(in_use: u64) -> Totals {
        Totals { handed_out: in_use, freed: 0 }
    }

    /// Hears the answer to a call.
    pub fn heard(&mut self, call: &Call, answer: u64) {
        match call.kind {
            _ if refusal(answer) != 0 => {}
            Make => self.handed_out += 1,
            Step if step_kind(answer) == SWEPT => self.freed += u64::from(step_freed(answer)),
            _ => {}
        }
    }

    /// So many blocks are in use, as `by` tells.
    pub fn agree(&self, in_use: u64, by: &str) -> Result<(), String> {
        let Totals { handed_out, freed } = self;
        match *handed_out == freed + in_use {
            true => Ok(()),
            false => Err(format!("{handed_out} blocks handed out less {freed} freed, and {in_use} in use by {by}")),
        }
    }
}
