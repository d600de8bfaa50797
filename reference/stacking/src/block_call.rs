//! A call with many records on a book handed in as bytes, a damaged one too, what
//! comes back as text, and the single calls that it stands for. The layout of
//! bytes and lines stands at the top of `bin/blockcheck.rs`.

use crate::book::{record_call, Book};
use crate::book_bytes::{self, push_book, push_length, push_lent};
use crate::book_lines::{write_book, write_changed, PATTERN};
use crate::notice::NOTICE_BUFFER_BYTES;
use crate::record::RECORD_BYTES;
use crate::single_call::Call;
use crate::stretch::RecordCalls;
use crate::tape::write_notices;
use std::io::{self, Write};

/// All that is lent to one call with many records.
#[derive(Clone, Debug, PartialEq, Eq)]
pub struct BlockCall {
    pub book: Book,
    pub calendar: Vec<u8>,
    pub stretch: Vec<u8>,
    pub answers_length: usize,
    pub notices_length: usize,
}

/// Makes the call, by the second program's own or by a faster one such as that
/// of `bench`, and writes its lines.
pub fn write_call_by(
    record_calls: RecordCalls,
    place: usize,
    call: &mut BlockCall,
    out: &mut dyn Write,
) -> io::Result<()> {
    let mut answers = vec![PATTERN; call.answers_length];
    let mut notices = vec![PATTERN; call.notices_length];
    let replies = record_calls(
        &mut call.book,
        &call.calendar,
        &call.stretch,
        &mut answers,
        &mut notices,
    );
    let (played, written) = (replies.played, replies.written);
    writeln!(
        out,
        "c {place} {} {played} {written}",
        replies.answer.number()
    )?;
    for (record, answer) in answers.iter().enumerate().take(played) {
        writeln!(out, "a {record} {answer}")?;
    }
    write_notices(&notices, written, out)?;
    write_changed('x', &notices, written * RECORD_BYTES, out)?;
    write_changed('y', &answers, played, out)?;
    write_book(&call.book, out)
}

/// The call's bytes.
pub fn call_bytes(call: &BlockCall) -> Vec<u8> {
    let mut bytes = Vec::new();
    push_book(&mut bytes, &call.book);
    push_lent(&mut bytes, &call.calendar);
    push_lent(&mut bytes, &call.stretch);
    push_length(&mut bytes, call.answers_length);
    push_length(&mut bytes, call.notices_length);
    bytes
}

/// The calls that stand one after another in these bytes.
pub fn read_calls(bytes: &[u8]) -> Result<Vec<BlockCall>, String> {
    book_bytes::read_calls(bytes, |left| {
        Ok(BlockCall {
            book: left.book()?,
            calendar: left.lent_bytes()?,
            stretch: left.lent_bytes()?,
            answers_length: left.length()?,
            notices_length: left.length()?,
        })
    })
}

/// The single calls that the first records of the stretch stand for, each on the
/// book that the one before left. They are lent no more bytes than a call can
/// fill: what is free behind those no record call looks at.
pub fn single_calls(call: &BlockCall, records: usize) -> Vec<Call> {
    let mut book = call.book.clone();
    let mut buffer = vec![PATTERN; NOTICE_BUFFER_BYTES];
    let first = call.stretch.chunks_exact(RECORD_BYTES).take(records);
    first
        .map(|record| {
            let single = Call {
                book: book.clone(),
                calendar: call.calendar.clone(),
                record: record.to_vec(),
                buffer_length: NOTICE_BUFFER_BYTES,
            };
            record_call(&mut book, &call.calendar, record, &mut buffer);
            single
        })
        .collect()
}
