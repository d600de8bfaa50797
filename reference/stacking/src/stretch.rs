//! A stretch of tape played in one call (02, change 5): what the single calls
//! would give, one after the other.

use crate::answer::BlockAnswer;
use crate::book::{record_call, Book};
use crate::notice::NOTICE_BUFFER_BYTES;
use crate::record::RECORD_BYTES;

/// What comes back beside the book and the two lent buffers.
#[derive(Clone, Copy, Debug, PartialEq, Eq)]
pub struct Replies {
    pub answer: BlockAnswer,
    /// How many records were played.
    pub played: usize,
    /// How many notices were written.
    pub written: usize,
}

impl Replies {
    pub fn new(answer: BlockAnswer, played: usize, written: usize) -> Replies {
        Replies {
            answer,
            played,
            written,
        }
    }
}

/// A call with many records: book, calendar, stretch, answer buffer and notice
/// buffer go in.
pub type RecordCalls = fn(&mut Book, &[u8], &[u8], &mut [u8], &mut [u8]) -> Replies;

/// Plays whole records from the start of the stretch, each into the notice bytes
/// still free, and puts its answer into the answer buffer. It stops before the
/// first record that would find too few bytes free, whatever that record is.
pub fn record_calls(
    book: &mut Book,
    calendar: &[u8],
    stretch: &[u8],
    answers: &mut [u8],
    notices: &mut [u8],
) -> Replies {
    let whole_records = stretch.len() / RECORD_BYTES;
    if answers.len() < whole_records {
        return Replies::new(BlockAnswer::AnswersTooShort, 0, 0);
    }
    let (mut played, mut written) = (0, 0);
    for record in stretch.chunks(RECORD_BYTES).take(whole_records) {
        let free = &mut notices[written * RECORD_BYTES..];
        if free.len() < NOTICE_BUFFER_BYTES {
            break;
        }
        let (answer, count) = record_call(book, calendar, record, free);
        answers[played] = answer.number();
        played += 1;
        written += count;
    }
    Replies::new(BlockAnswer::Played, played, written)
}
