//! Document 02, change 9: the first fittings' records of 20 bytes and ours of
//! 24, converted each way.

#![forbid(unsafe_code)]

use std::ops::Range;

/// The bytes of one of the first fittings' records.
pub const OLD: usize = 20;

/// The bytes of one of our records.
pub const OURS: usize = 24;

/// Where the fields of bytes 0 to 19 stand: record kind, detail, day, reference,
/// premise, and the last four, which count as one.
const FIELDS: [Range<usize>; 6] = [0..1, 1..2, 2..4, 4..8, 8..16, 16..20];

/// A way to convert.
#[derive(Clone, Copy, Debug, PartialEq, Eq)]
pub enum Way {
    To24,
    To20,
}

/// What a conversion gives back.
#[derive(Clone, Copy, Debug, PartialEq, Eq)]
pub struct Conversion {
    /// 0, or the number of the first test that failed.
    pub answer: u8,
    /// How many bytes of the output were written.
    pub written: usize,
}

impl Way {
    /// The length of the records that come in.
    pub fn size_in(self) -> usize {
        match self {
            Way::To24 => OLD,
            Way::To20 => OURS,
        }
    }

    /// The length of the records that go out.
    pub fn size_out(self) -> usize {
        match self {
            Way::To24 => OURS,
            Way::To20 => OLD,
        }
    }

    /// How many bytes the whole records of so many are converted to.
    pub fn needed(self, bytes: usize) -> usize {
        bytes / self.size_in() * self.size_out()
    }
}

/// Converts a tape into a buffer, whose bytes past the converted tape stay. A
/// refusal leaves all of it.
pub fn convert(way: Way, input: &[u8], output: &mut [u8]) -> Conversion {
    let answer = refusal(way, input, output.len());
    if answer != 0 {
        return Conversion { answer, written: 0 };
    }
    let written = way.needed(input.len());
    let records = input.chunks_exact(way.size_in());
    let places = output[..written].chunks_exact_mut(way.size_out());
    for (record, place) in records.zip(places) {
        convert_record(record, place);
    }
    Conversion { answer, written }
}

/// The number of the first test that fails; 0 if none does.
fn refusal(way: Way, input: &[u8], room: usize) -> u8 {
    if input.len() % way.size_in() != 0 {
        return 23;
    }
    if room < way.needed(input.len()) {
        return 24;
    }
    let used = |record: &[u8]| record[OLD..].iter().any(|&byte| byte != 0);
    if way == Way::To20 && input.chunks_exact(OURS).any(used) {
        return 25;
    }
    0
}

/// Each field's bytes the other way round, then zeros as far as the place goes.
fn convert_record(record: &[u8], place: &mut [u8]) {
    for field in FIELDS {
        place[field.clone()].copy_from_slice(&record[field.clone()]);
        place[field].reverse();
    }
    place[OLD..].fill(0);
}
