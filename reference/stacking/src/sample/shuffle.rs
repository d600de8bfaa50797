//! Shuffles of a tape that no premise can tell from it.

use crate::answer::Answer;
use crate::book::{record_call, Book};
use crate::notice::NOTICE_BUFFER_BYTES;
use crate::random::Random;
use crate::record::{decode, Record, RECORD_BYTES};
use std::collections::{HashMap, VecDeque};

/// How often another order of a stretch is tried before its own one is kept.
const TRIES: usize = 8;

/// Shuffles a tape between premises: for each premise its own records and the
/// day marks keep their order. Malformed records go anywhere; a short last one
/// stays last. If the tape never meets row 6, neither does the shuffled one.
pub fn shuffle(random: &mut Random, calendar: &[u8], tape: &[u8]) -> Vec<u8> {
    let (malformed, stretches) = sort_out(tape);
    let mut shuffled = Vec::new();
    let mut book = Book::fresh(0);
    for stretch in stretches {
        shuffled.extend(interleave(random, calendar, &mut book, stretch));
    }
    for record in malformed {
        let place = random.below(shuffled.len() + 1);
        shuffled.insert(place, record);
    }
    let short = tape.chunks_exact(RECORD_BYTES).remainder();
    [shuffled.concat().as_slice(), short].concat()
}

/// The tape's whole records: the malformed ones, and the others in stretches
/// that each end with a day mark (the last may not).
fn sort_out(tape: &[u8]) -> (Vec<&[u8]>, Vec<Vec<&[u8]>>) {
    let mut malformed = Vec::new();
    let mut stretches = Vec::new();
    let mut stretch = Vec::new();
    for record in tape.chunks_exact(RECORD_BYTES) {
        match decode(record) {
            None => malformed.push(record),
            Some(Record::OfPremise { .. }) => stretch.push(record),
            Some(Record::DayMark { .. }) => {
                stretch.push(record);
                stretches.push(std::mem::take(&mut stretch));
            }
        }
    }
    stretches.push(stretch);
    (malformed, stretches)
}

/// A random interleaving of the stretch that finds the book full nowhere, or the
/// stretch as it is if none is found. The book is played on to its end.
fn interleave<'a>(
    random: &mut Random,
    calendar: &[u8],
    book: &mut Book,
    stretch: Vec<&'a [u8]>,
) -> Vec<&'a [u8]> {
    for _ in 0..TRIES {
        let candidate = interleaving(random, &stretch);
        let mut played = book.clone();
        if !meets_full_book(&mut played, calendar, &candidate) {
            *book = played;
            return candidate;
        }
    }
    meets_full_book(book, calendar, &stretch);
    stretch
}

/// Shuffles whose turn it is, and lets each premise send its records in order.
fn interleaving<'a>(random: &mut Random, stretch: &[&'a [u8]]) -> Vec<&'a [u8]> {
    let mut queues: HashMap<u64, VecDeque<&'a [u8]>> = HashMap::new();
    let mut turns = Vec::new();
    let mut result = Vec::new();
    let mut mark = None;
    for &record in stretch {
        match decode(record) {
            Some(Record::OfPremise { premise, .. }) => {
                turns.push(premise);
                queues.entry(premise).or_default().push_back(record);
            }
            _ => mark = Some(record),
        }
    }
    random.shuffle(&mut turns);
    for premise in turns {
        result.extend(queues.get_mut(&premise).and_then(VecDeque::pop_front));
    }
    result.extend(mark);
    result
}

/// Plays the records; does one of them meet row 6?
fn meets_full_book(book: &mut Book, calendar: &[u8], records: &[&[u8]]) -> bool {
    let mut notices = vec![0; NOTICE_BUFFER_BYTES];
    let mut met = false;
    for record in records {
        met |= record_call(book, calendar, record, &mut notices).0 == Answer::BookFull;
    }
    met
}
