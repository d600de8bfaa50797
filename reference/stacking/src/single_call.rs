//! A single record call on a book handed in as bytes, a damaged one too, and
//! what comes back as text. The layout of both stands at the top of
//! `bin/callcheck.rs`.

use crate::book::{record_call, Book};
use crate::book_bytes::{self, push_book, push_length, push_lent};
use crate::book_lines::{write_book, write_changed, PATTERN};
use crate::record::RECORD_BYTES;
use crate::tape::write_notices;
use std::io::{self, Write};

/// All that is lent to one record call.
#[derive(Clone, Debug, PartialEq, Eq)]
pub struct Call {
    pub book: Book,
    pub calendar: Vec<u8>,
    pub record: Vec<u8>,
    pub buffer_length: usize,
}

/// Makes the call and writes its lines.
pub fn write_call(place: usize, call: &mut Call, out: &mut dyn Write) -> io::Result<()> {
    let mut buffer = vec![PATTERN; call.buffer_length];
    let (answer, count) = record_call(&mut call.book, &call.calendar, &call.record, &mut buffer);
    writeln!(out, "c {place} {} {count}", answer.number())?;
    write_notices(&buffer, count, out)?;
    write_changed('x', &buffer, count * RECORD_BYTES, out)?;
    write_book(&call.book, out)
}

/// The call's bytes.
pub fn call_bytes(call: &Call) -> Vec<u8> {
    let mut bytes = Vec::new();
    push_book(&mut bytes, &call.book);
    push_lent(&mut bytes, &call.calendar);
    push_lent(&mut bytes, &call.record);
    push_length(&mut bytes, call.buffer_length);
    bytes
}

/// The calls that stand one after another in these bytes.
pub fn read_calls(bytes: &[u8]) -> Result<Vec<Call>, String> {
    book_bytes::read_calls(bytes, |left| {
        Ok(Call {
            book: left.book()?,
            calendar: left.lent_bytes()?,
            record: left.lent_bytes()?,
            buffer_length: left.length()?,
        })
    })
}
