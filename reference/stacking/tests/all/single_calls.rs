//! Random single calls on well-kept books of all kinds and on damaged ones, and
//! the stored ones.

use crate::support::PATTERN;
use stacking::answer::Answer;
use stacking::book::{record_call, Book};
use stacking::file::File;
use stacking::random::Random;
use stacking::record::{decode, Record, RECORD_BYTES};
use stacking::rules::OnePremise;
use stacking::sample::call;
use stacking::single_call::Call;
use stacking::stored_calls;
use stacking::well_kept::is_well_kept;
use std::collections::BTreeSet;

struct Outcome {
    answer: Answer,
    count: usize,
    book: Book,
    buffer: Vec<u8>,
}

fn made(call: &Call) -> Outcome {
    let mut book = call.book.clone();
    let mut buffer = vec![PATTERN; call.buffer_length];
    let (answer, count) = record_call(&mut book, &call.calendar, &call.record, &mut buffer);
    Outcome {
        answer,
        count,
        book,
        buffer,
    }
}

/// What must hold of any call, whatever the book.
fn assert_sound(call: &Call, outcome: &Outcome) {
    let written = outcome.count * RECORD_BYTES;
    assert!(outcome.buffer[written..]
        .iter()
        .all(|&byte| byte == PATTERN));
    if outcome.answer != Answer::Accepted {
        assert_eq!(outcome.count, 0);
        assert!(outcome.book == call.book);
        return;
    }
    assert!(is_well_kept(&outcome.book));
    // two notices at most for each order that the record could be about, and two
    // for an agreement
    let concerned = |file: &&File| match decode(&call.record) {
        Some(Record::OfPremise { premise, .. }) => file.premise == premise,
        _ => true,
    };
    let files = outcome.book.held().iter().filter(concerned);
    let orders: usize = files.map(|file| file.held().len()).sum();
    assert!(outcome.count <= 2 * orders.max(1));
}

/// Files of other premises stay, and this premise's is as by its own rules.
fn assert_as_by_the_rules(call: &Call, outcome: &Outcome) {
    let Some(Record::OfPremise { premise, .. }) = decode(&call.record) else {
        return;
    };
    if matches!(
        outcome.answer,
        Answer::BufferTooShort | Answer::BookNotWellKept | Answer::BookFull
    ) {
        return;
    }
    let (file_before, others_before) = split_off(&call.book, premise);
    let (file_after, others_after) = split_off(&outcome.book, premise);
    assert_eq!(others_before, others_after);
    let mut rules = OnePremise {
        today: call.book.today,
        file: file_before,
    };
    let expected = rules.step(&call.calendar, &call.record);
    assert_eq!(expected.answer, outcome.answer);
    assert_eq!(
        expected.notices.concat(),
        outcome.buffer[..outcome.count * RECORD_BYTES]
    );
    assert_eq!(rules.file, file_after);
}

/// A premise's file, and the files of the others.
fn split_off(book: &Book, premise: u64) -> (Option<File>, Vec<File>) {
    let (own, others): (Vec<File>, Vec<File>) =
        book.held().iter().partition(|file| file.premise == premise);
    (own.first().copied(), others)
}

#[test]
fn random_calls() {
    let mut random = Random::new(2);
    let mut answers = BTreeSet::new();
    for _ in 0..8_000 {
        let call = call(&mut random);
        let outcome = made(&call);
        assert_sound(&call, &outcome);
        assert_as_by_the_rules(&call, &outcome);
        assert_eq!(outcome.answer == Answer::BookNotWellKept, {
            call.buffer_length >= 24_576 && !is_well_kept(&call.book)
        });
        answers.insert(outcome.answer.number());
    }
    assert_eq!(
        Vec::from_iter(answers),
        Vec::from_iter((0..=18).chain([26]))
    );
}

/// A stored call is what its name says: one that begins with a row is answered
/// by that row, and one that says `well kept` is accepted.
#[test]
fn stored_calls_do_what_they_are_called() {
    let calls = stored_calls::all();
    let names: BTreeSet<&str> = calls.iter().map(|stored| stored.name).collect();
    assert!(calls.len() >= 100 && names.len() == calls.len());
    let mut answers = BTreeSet::new();
    for stored in &calls {
        let outcome = made(&stored.call);
        assert_sound(&stored.call, &outcome);
        assert_as_by_the_rules(&stored.call, &outcome);
        let answer = outcome.answer.number();
        let name = stored.name;
        if let Some(rest) = name.strip_prefix("row ") {
            let digits: String = rest.chars().take_while(char::is_ascii_digit).collect();
            assert_eq!(digits, answer.to_string(), "{name}");
        } else if name.starts_with("well kept") {
            assert_eq!(answer, 0, "{name}");
        }
        answers.insert(answer);
    }
    assert_eq!(
        Vec::from_iter(answers),
        Vec::from_iter((0..=18).chain([26]))
    );
}
