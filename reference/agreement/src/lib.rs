//! Document 02, change 10: our tape held against the second supplier's.

#![forbid(unsafe_code)]

mod maps;
pub mod pair;
mod sentence;

use std::fmt;

pub use maps::compare;
pub use sentence::by_the_sentence;

/// The longest tape that the program takes: 43,690 records.
pub const MOST_BYTES: usize = 1_048_560;

/// What comparing two tapes says.
#[derive(Clone, Copy, Debug, PartialEq, Eq)]
pub enum Agreement {
    /// Yes.
    Same,
    /// No: the day marks, taken by themselves, differ.
    MarksDiffer,
    /// No: the smallest premise at which the tapes differ.
    Differ(u64),
}

impl fmt::Display for Agreement {
    fn fmt(&self, out: &mut fmt::Formatter) -> fmt::Result {
        match self {
            Agreement::Same => write!(out, "yes 0"),
            Agreement::MarksDiffer => write!(out, "no 0"),
            Agreement::Differ(premise) => write!(out, "no {premise}"),
        }
    }
}
