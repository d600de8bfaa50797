//! Tapes of the stacking book as readable text.
//!
//! A tape is 24-byte records without header, played under a calendar of one
//! byte a day. Here both are one text: the calendar first, then one record a
//! line in the trade's words. [`encode`] turns text into bytes and [`decode`]
//! bytes into text; decoding and encoding again gives the same bytes, whatever
//! they are. [`explain`] says what the tape program printed for a text in words.

#![forbid(unsafe_code)]

mod calendar;
mod decode;
mod encode;
mod explain;
mod form;
mod line;
mod problem;
mod raw;
mod record;
mod row;

pub use calendar::CALENDAR_DAYS;
pub use decode::decode;
pub use encode::{encode, encode_lined};
pub use explain::explain;
pub use form::RECORD_BYTES;
pub use problem::Problem;

/// The tape program plays so many bytes of a tape, and leaves out what follows.
pub const PLAYED_BYTES: usize = 65_520;

/// What one text says: a tape and the calendar it is played under.
#[derive(Clone, Debug, PartialEq, Eq)]
pub struct Tape {
    /// One byte a day; `None` where there is no calendar file at all.
    pub calendar: Option<Vec<u8>>,
    /// The records, end to end; only the last one may be short.
    pub records: Vec<u8>,
}

/// A tape with the lines that it came from.
#[derive(Clone, Debug, PartialEq, Eq)]
pub struct Lined {
    pub tape: Tape,
    /// For each record the number of its line in the text, from 1.
    pub lines: Vec<usize>,
}

impl Lined {
    /// The lines of the records that the tape program leaves out.
    pub fn left_out(&self) -> &[usize] {
        let played = PLAYED_BYTES / RECORD_BYTES;
        self.lines.get(played..).unwrap_or(&[])
    }
}
