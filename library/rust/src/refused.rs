//! A trace that was not loaded: why, where, and what to do.

use std::error::Error;
use std::fmt::{Display, Formatter, Result};

/// The refusal of a trace. Displayed it says the cause and what to do.
#[derive(Clone, Copy, Debug, PartialEq, Eq)]
pub struct Refused {
    /// 1 to 9, as in the README.
    pub number: u64,
    /// The byte that shows the cause, counted from 0.
    pub place: usize,
}

impl Refused {
    pub fn cause(&self) -> &'static str {
        match self.number {
            1 => "the trace stops in the middle of a record, or without an end record",
            2 => "a number is longer than it has to be, or does not fit 64 bits",
            3 => "a record has a kind over 6",
            4 => "a field is out of its range, or a float is negative, over 2^40, infinite or no number",
            5 => "a GPU comes before any node",
            6 => "options, the quota of a tenant or a profile is there a second time",
            7 => "the 33rd node, 129th GPU or 129th job",
            8 => "bytes follow the end record",
            9 => "the trace has over 65,536 bytes",
            _ => "no refusal of a trace has this number",
        }
    }

    pub fn remedy(&self) -> &'static str {
        match self.number {
            1 => "send the trace whole; its last byte is the end record, 00",
            2 => "write each number in its shortest form",
            3 => "check the kind; a record before it with a field too many or too few also leads here",
            4 => "put the field into its range (docs/RULES.md, rules 16 to 23)",
            5 => "put its node before it",
            6 => "keep one",
            7 => "plan in several traces",
            8 => "cut the trace there, or take out the early end record",
            9 => "check what was sent: no trace over 9,071 bytes can be loaded",
            _ => "check the number",
        }
    }
}

impl Display for Refused {
    fn fmt(&self, out: &mut Formatter) -> Result {
        let (cause, remedy) = (self.cause(), self.remedy());
        write!(
            out,
            "refused {} at {}: {cause}; {remedy}",
            self.number, self.place
        )
    }
}

impl Error for Refused {}
