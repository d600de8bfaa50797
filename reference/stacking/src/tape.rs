//! The tape player and its text.

use crate::answer::Answer;
use crate::book::{record_call, Book, RecordCall};
use crate::book_lines::write_totals;
use crate::file::File;
use crate::notice::NOTICE_BUFFER_BYTES;
use crate::record::{Fields, RECORD_BYTES};
use std::io::{self, Write};

/// A tape is played up to this many bytes.
pub const TAPE_BYTES: usize = 65_520;

/// Where the player is on the tape, and what it has met so far.
#[derive(Clone, Copy, Debug, Default, PartialEq, Eq)]
pub struct TapeReader {
    /// The place of the last record played, from 1.
    pub place: u32,
    pub accepted: u32,
    pub refused: u32,
}

impl TapeReader {
    fn count(&mut self, answer: Answer) {
        self.place += 1;
        match answer {
            Answer::Accepted => self.accepted += 1,
            _ => self.refused += 1,
        }
    }
}

/// Plays a tape over a fresh book that starts at day 0, and writes its lines. A
/// short last record is a call like any other, and is answered 3.
pub fn play(calendar: &[u8], tape: &[u8], out: &mut dyn Write) -> io::Result<()> {
    play_by(record_call, calendar, tape, out)
}

/// The same by another record call, such as the faster ones of `bench`.
pub fn play_by(
    call: RecordCall,
    calendar: &[u8],
    tape: &[u8],
    out: &mut dyn Write,
) -> io::Result<()> {
    let mut book = Book::fresh(0);
    let mut reader = TapeReader::default();
    let mut notices = [0; NOTICE_BUFFER_BYTES];
    for record in tape.chunks(RECORD_BYTES) {
        let (answer, count) = call(&mut book, calendar, record, &mut notices);
        reader.count(answer);
        writeln!(out, "{} {} {}", reader.place, answer.number(), count)?;
        write_notices(&notices, count, out)?;
    }
    for file in book.held() {
        write_file(file, out)?;
    }
    writeln!(out, "t {} {}", reader.accepted, reader.refused)
}

/// The book that a tape leads to, from a fresh one at day 0.
pub fn played(calendar: &[u8], tape: &[u8]) -> Book {
    let mut book = Book::fresh(0);
    let mut notices = [0; NOTICE_BUFFER_BYTES];
    for record in tape.chunks(RECORD_BYTES) {
        record_call(&mut book, calendar, record, &mut notices);
    }
    book
}

/// The line `q`: how many orders are in each open status, counted over the files.
pub fn write_waiting(book: &Book, out: &mut dyn Write) -> io::Result<()> {
    write!(out, "q")?;
    write_totals(&book.counted(), out)
}

/// A line for each of the first `count` notices of a buffer.
pub fn write_notices(buffer: &[u8], count: usize, out: &mut dyn Write) -> io::Result<()> {
    for bytes in buffer.chunks_exact(RECORD_BYTES).take(count) {
        let notice = Fields::from_bytes(bytes.try_into().expect("chunks are 24 bytes"));
        writeln!(
            out,
            "n {} {} {} {} {} {}",
            notice.kind,
            notice.detail,
            notice.day,
            notice.reference,
            notice.premise,
            notice.retailer
        )?;
    }
    Ok(())
}

fn write_file(file: &File, out: &mut dyn Write) -> io::Result<()> {
    writeln!(out, "p {} {} {}", file.premise, file.retailer, file.since)
}
