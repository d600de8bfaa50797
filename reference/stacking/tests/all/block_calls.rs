//! Many records in one call (document 02, change 5): each sentence, and that it is
//! the single calls one after the other, on random stretches and the stored ones.

use crate::support::*;
use stacking::answer::{Answer, BlockAnswer};
use stacking::block_call::{single_calls, BlockCall};
use stacking::book::{record_call, Book, FILES_A_BOOK};
use stacking::notice::NOTICE_BUFFER_BYTES;
use stacking::random::Random;
use stacking::record::{Entry, RECORD_BYTES};
use stacking::sample::{block_call, calendar, tape, TapeOptions};
use stacking::stored_calls;
use stacking::stretch::{record_calls, Replies};
use stacking::well_kept::is_well_kept;
use std::collections::BTreeSet;

/// All that comes back from a call.
#[derive(Debug, PartialEq)]
struct Outcome {
    replies: Replies,
    book: Book,
    answers: Vec<u8>,
    notices: Vec<u8>,
}

fn made(call: &BlockCall) -> Outcome {
    let mut book = call.book.clone();
    let mut answers = vec![PATTERN; call.answers_length];
    let mut notices = vec![PATTERN; call.notices_length];
    let replies = record_calls(
        &mut book,
        &call.calendar,
        &call.stretch,
        &mut answers,
        &mut notices,
    );
    Outcome {
        replies,
        book,
        answers,
        notices,
    }
}

/// What must come back, put together from single calls that each have a buffer of
/// their own. How far it goes is asked of the bytes that their notices take.
fn by_single_calls(call: &BlockCall) -> Outcome {
    let mut expected = Outcome {
        replies: Replies::new(BlockAnswer::AnswersTooShort, 0, 0),
        book: call.book.clone(),
        answers: vec![PATTERN; call.answers_length],
        notices: vec![PATTERN; call.notices_length],
    };
    let whole_records = call.stretch.len() / RECORD_BYTES;
    if call.answers_length < whole_records {
        return expected;
    }
    let (mut answers, mut notices) = (Vec::new(), Vec::new());
    for place in 0..whole_records {
        if notices.len() + 24_576 > call.notices_length {
            break;
        }
        let record = &call.stretch[24 * place..24 * (place + 1)];
        let mut own = buffer();
        let (answer, count) = record_call(&mut expected.book, &call.calendar, record, &mut own);
        answers.push(answer.number());
        notices.extend(&own[..24 * count]);
    }
    expected.replies = replies(answers.len(), notices.len() / 24);
    expected.answers[..answers.len()].copy_from_slice(&answers);
    expected.notices[..notices.len()].copy_from_slice(&notices);
    expected
}

fn replies(played: usize, written: usize) -> Replies {
    Replies::new(BlockAnswer::Played, played, written)
}

fn own(entries: &[Entry]) -> Vec<u8> {
    let records = entries.iter().map(|&entry| of_premise(PREMISE, entry));
    records.flatten().collect()
}

/// On a book with the premise's file, on day 10; buffers that are long enough.
fn on_file(stretch: Vec<u8>) -> BlockCall {
    BlockCall {
        book: Book::of_files(10, &[file_with(&[])]),
        calendar: business_days(),
        answers_length: stretch.len() / RECORD_BYTES,
        stretch,
        notices_length: 2 * NOTICE_BUFFER_BYTES,
    }
}

/// Three new orders, each with one notice.
fn three_orders() -> Vec<u8> {
    own(&[1, 2, 3].map(|reference| new_order(2, 20, reference)))
}

fn is_pattern(bytes: &[u8]) -> bool {
    bytes.iter().all(|&byte| byte == PATTERN)
}

/// Nothing has happened but for the answer.
fn assert_untouched(call: &BlockCall, answer: u8) {
    let outcome = made(call);
    assert_eq!(outcome.replies.answer.number(), answer);
    assert_eq!((outcome.replies.played, outcome.replies.written), (0, 0));
    assert!(outcome.book == call.book);
    assert!(is_pattern(&outcome.answers) && is_pattern(&outcome.notices));
}

#[test]
fn each_record_goes_into_the_notice_bytes_still_free() {
    let call = on_file(three_orders());
    let outcome = made(&call);
    assert_eq!(outcome.replies, replies(3, 3));
    assert_eq!(outcome.answers, [0, 0, 0]);
    let notices: Vec<Notice> = outcome.notices[..72].chunks(24).map(notice).collect();
    let expected = [1, 2, 3].map(|reference| (2, 2, 20, reference, TDSP));
    assert_eq!(notices, expected);
    assert!(is_pattern(&outcome.notices[72..]));
    assert_eq!(outcome.book.files[0].order_count, 3);
}

#[test]
fn it_stops_before_the_first_record_that_would_find_too_few_bytes() {
    for (more, played) in [
        (0, 1),
        (1, 1),
        (23, 1),
        (24, 2),
        (47, 2),
        (48, 3),
        (240, 3),
        (24_576, 3),
        (4 * 24_576, 3),
    ] {
        let mut call = on_file(three_orders());
        call.notices_length = NOTICE_BUFFER_BYTES + more;
        let outcome = made(&call);
        assert_eq!(outcome.replies, replies(played, played), "{more}");
        assert_eq!(
            usize::from(outcome.book.files[0].order_count),
            played,
            "{more}"
        );
        assert!(is_pattern(&outcome.answers[played..]));
        assert!(is_pattern(&outcome.notices[24 * played..]));
    }
}

#[test]
fn with_a_buffer_under_24576_bytes_none_is_played() {
    let refused = own(&[create(0, HOLDER)]);
    for stretch in [three_orders(), refused, mark(11).to_vec(), vec![0; 24]] {
        for length in [0, 23, 24, 24_575] {
            let mut call = on_file(stretch.clone());
            call.notices_length = length;
            assert_untouched(&call, 0);
        }
    }
}

/// Whatever the next record would give: a notice, none, a refusal.
#[test]
fn it_stops_whatever_the_record_is() {
    let next = [
        own(&[new_order(2, 20, 2)]),
        own(&[create(0, HOLDER)]),
        own(&[Entry::Retire]),
        mark(11).to_vec(),
        vec![0; 24],
    ];
    for record in next {
        let first = own(&[new_order(2, 20, 1)]);
        let mut call = on_file([first, record.clone()].concat());
        call.notices_length = NOTICE_BUFFER_BYTES + 23;
        assert_eq!(made(&call).replies, replies(1, 1));
        call.notices_length += 1;
        assert_eq!(made(&call).replies.played, 2);
        // alone it is played in the least buffer
        let mut alone = on_file(record);
        alone.notices_length = NOTICE_BUFFER_BYTES;
        assert_eq!(made(&alone).replies.played, 1);
    }
}

#[test]
fn a_short_rest_is_not_played_and_has_no_answer_byte() {
    for length in 0..=72 {
        let mut call = on_file(three_orders()[..length].to_vec());
        let whole = length / 24;
        let outcome = made(&call);
        assert_eq!(outcome.replies, replies(whole, whole), "{length}");
        call.answers_length = whole + 1;
        let outcome = made(&call);
        assert_eq!(outcome.answers[whole], PATTERN, "{length}");
    }
}

#[test]
fn refused_records_are_played_too() {
    let stretch = [
        own(&[create(0, HOLDER), new_order(2, 20, 1), new_order(2, 20, 1)]),
        mark(12).to_vec(),
        vec![0; 24],
        own(&[new_order(2, 20, 2), permit(2), cancel_by(ANOTHER, 2)]),
        mark(11).to_vec(),
    ]
    .concat();
    let outcome = made(&on_file(stretch));
    assert_eq!(outcome.replies, replies(9, 2));
    assert_eq!(outcome.answers, [5, 0, 8, 15, 3, 0, 14, 13, 0]);
    assert_eq!(outcome.book.today, 11);
}

#[test]
fn a_damaged_book_gets_a_2_for_each_record_and_0_as_the_answer() {
    for damage in [
        (|book: &mut Book| book.today = 4_096) as fn(&mut Book),
        |book| book.file_count = 65,
        |book| book.files[0].window.0 = 6,
        |book| book.files[63].moved_in = 1,
        |book| book.waiting.scheduled = 1,
    ] {
        let mut call = on_file(three_orders());
        damage(&mut call.book);
        call.answers_length = 4;
        let outcome = made(&call);
        assert_eq!(outcome.replies, replies(3, 0));
        assert_eq!(outcome.answers, [2, 2, 2, PATTERN]);
        assert!(outcome.book == call.book && is_pattern(&outcome.notices));
        call.notices_length = NOTICE_BUFFER_BYTES;
        assert_eq!(made(&call).replies, replies(3, 0));
        call.notices_length -= 1;
        assert_untouched(&call, 0);
    }
}

/// By the whole records of the stretch, not by those that would be played, and
/// before room and book are looked at.
#[test]
fn too_few_answer_bytes_get_19_before_anything_is_played() {
    for notices_length in [0, 24_575, 24_576, 49_152] {
        for today in [10, 4_096] {
            for answers_length in 0..3 {
                let mut call = on_file(three_orders());
                call.book.today = today;
                call.answers_length = answers_length;
                call.notices_length = notices_length;
                assert_untouched(&call, 19);
                call.stretch.extend([0; 23]);
                assert_untouched(&call, 19);
            }
        }
    }
    let mut exact = on_file(three_orders());
    exact.stretch.extend([0; 23]);
    assert_eq!(made(&exact).replies, replies(3, 3));
}

#[test]
fn records_find_the_files_that_the_stretch_has_made() {
    let stretch = [
        of_premise(9, create(0, HOLDER)),
        of_premise(9, new_order(2, 20, 1)),
        of_premise(3, create(0, HOLDER)),
        of_premise(9, unexecutable(1)),
        of_premise(PREMISE, Entry::Retire),
        of_premise(9, Entry::Retire),
        of_premise(PREMISE, new_order(2, 20, 1)),
        of_premise(3, new_order(2, 20, 1)),
    ]
    .concat();
    let outcome = made(&on_file(stretch));
    assert_eq!(outcome.replies, replies(8, 3));
    assert_eq!(outcome.answers, [0, 0, 0, 0, 0, 0, 4, 0]);
    let premises: Vec<u64> = outcome
        .book
        .held()
        .iter()
        .map(|file| file.premise)
        .collect();
    assert_eq!(premises, [3]);
}

/// A mark with 1,024 notices fills the least buffer, and leaves just enough of
/// one that is twice as long.
#[test]
fn the_largest_mark_within_a_stretch() {
    let waits = [1, 2, 3, 4, 5, 6, 7, 8].map(|reference| {
        let mut waiting = order(reference, 1, 20, NONE, 4);
        waiting.cancel_pending_for.0 = 6;
        waiting
    });
    let mut call = on_file([mark(11).to_vec(), own(&[new_order(2, 20, 9)])].concat());
    let files = [0; FILES_A_BOOK].map(|_| file_with(&waits));
    call.book = Book::of_files(10, &files);
    for (place, file) in call.book.files.iter_mut().enumerate() {
        file.premise += place as u64;
    }
    for (length, expected) in [
        (NOTICE_BUFFER_BYTES, replies(1, 1_024)),
        (2 * NOTICE_BUFFER_BYTES - 1, replies(1, 1_024)),
        (2 * NOTICE_BUFFER_BYTES, replies(2, 1_025)),
    ] {
        call.notices_length = length;
        assert_eq!(made(&call).replies, expected);
        assert_eq!(made(&call), by_single_calls(&call));
    }
}

/// What random calls are seen to meet.
fn met(call: &BlockCall, outcome: &Outcome) -> Vec<&'static str> {
    let whole = call.stretch.len() / RECORD_BYTES;
    let Replies {
        answer,
        played,
        written,
    } = outcome.replies;
    let kept = is_well_kept(&call.book);
    let free = call.notices_length - written * RECORD_BYTES;
    let files = |book: &Book| book.file_count;
    let facts = [
        ("19", answer == BlockAnswer::AnswersTooShort),
        (
            "19 on a damaged book",
            answer == BlockAnswer::AnswersTooShort && !kept,
        ),
        (
            "19, nothing would be played",
            answer == BlockAnswer::AnswersTooShort && free < 24_576,
        ),
        ("no record", whole == 0),
        ("a rest", call.stretch.len() > whole * RECORD_BYTES),
        ("a rest alone", whole == 0 && !call.stretch.is_empty()),
        ("to the end", played == whole && played > 1),
        (
            "to the end with just enough room",
            played == whole && written > 0 && free == 24_576,
        ),
        (
            "stopped within",
            0 < played && played < whole && answer == BlockAnswer::Played,
        ),
        (
            "stopped at 24,575",
            0 < played && played < whole && free == 24_575,
        ),
        ("no room", played == 0 && whole > 0 && free < 24_576),
        ("a damaged book", !kept && played > 1),
        (
            "a damaged book, no room",
            !kept && whole > 0 && free < 24_576,
        ),
        (
            "answer bytes left",
            played > 0 && call.answers_length > whole,
        ),
        ("2,730 records", played == 2_730),
        ("1,000 notices", written > 1_000),
        (
            "more files",
            played > 0 && files(&outcome.book) > files(&call.book),
        ),
        (
            "fewer files",
            played > 0 && files(&outcome.book) < files(&call.book),
        ),
        ("a later day", outcome.book.today > call.book.today),
        (
            "refused first",
            played > 1 && outcome.answers[0] > 2 && outcome.answers[1] == 0,
        ),
        (
            "refused last",
            played > 1 && outcome.answers[played - 1] > 2,
        ),
    ];
    let seen = facts.iter().filter(|(_, is)| *is);
    seen.map(|&(name, _)| name).collect()
}

const TO_BE_MET: usize = 21;

#[test]
fn random_calls_are_the_single_calls_one_after_the_other() {
    let mut random = Random::new(5);
    let (mut seen, mut answers) = (BTreeSet::new(), BTreeSet::<u8>::new());
    for _ in 0..2_500 {
        let call = block_call(&mut random);
        assert!(call.stretch.len() <= 65_520);
        assert!(call.answers_length <= 4_096 && call.notices_length <= 131_072);
        let outcome = made(&call);
        assert!(outcome == by_single_calls(&call));
        answers.extend(&outcome.answers[..outcome.replies.played]);
        seen.extend(met(&call, &outcome));
    }
    assert_eq!(seen.len(), TO_BE_MET, "{seen:?}");
    let all = (0..=18).chain([26]).filter(|&number| number != 1);
    assert_eq!(Vec::from_iter(answers), Vec::from_iter(all));
}

/// A random tape in stretches of any number of records, each call on the book that
/// the one before left, and again from where it stopped: all in all the single
/// calls of the whole tape.
#[test]
fn a_tape_in_stretches_is_the_tape() {
    for seed in 0..60 {
        let mut random = Random::new(seed);
        let calendar = calendar(&mut random);
        let options = TapeOptions {
            records: 300,
            premises: None,
            never_full: false,
        };
        let tape = tape(&mut random, &calendar, &options);
        let whole = &tape[..tape.len() / 24 * 24];
        let (mut book, mut left) = (Book::fresh(0), whole);
        let (mut answers, mut notices) = (Vec::<u8>::new(), Vec::<u8>::new());
        while !left.is_empty() {
            let length = (24 * (1 + random.below(40))).min(left.len());
            let mut lent_answers = [PATTERN; 40];
            let mut lent = vec![PATTERN; NOTICE_BUFFER_BYTES + 24 * random.below(20)];
            let stretch = &left[..length];
            let replies = record_calls(&mut book, &calendar, stretch, &mut lent_answers, &mut lent);
            assert!(replies.played > 0);
            answers.extend(&lent_answers[..replies.played]);
            notices.extend(&lent[..24 * replies.written]);
            left = &left[24 * replies.played..];
        }
        let mut single = Book::fresh(0);
        let (mut single_answers, mut single_notices) = (Vec::new(), Vec::new());
        for record in whole.chunks(24) {
            let mut own = buffer();
            let (answer, count) = record_call(&mut single, &calendar, record, &mut own);
            single_answers.push(answer.number());
            single_notices.extend(&own[..24 * count]);
        }
        assert!(book == single && answers == single_answers && notices == single_notices);
    }
}

/// The single calls that a call stands for, as they are handed to other programs.
#[test]
fn the_single_calls_of_a_call_lead_to_its_book() {
    let mut random = Random::new(7);
    for _ in 0..200 {
        let call = block_call(&mut random);
        let outcome = made(&call);
        let singles = single_calls(&call, outcome.replies.played);
        assert_eq!(singles.len(), outcome.replies.played);
        let (mut book, mut written) = (call.book.clone(), 0);
        for (single, &answer) in singles.iter().zip(&outcome.answers) {
            assert!(single.book == book);
            let mut lent = vec![PATTERN; single.buffer_length];
            let (own, count) = record_call(&mut book, &single.calendar, &single.record, &mut lent);
            assert_eq!(own.number(), answer);
            let written_by_block = &outcome.notices[24 * written..][..24 * count];
            assert_eq!(&lent[..24 * count], written_by_block);
            written += count;
        }
        assert!(book == outcome.book && written == outcome.replies.written);
    }
}

/// A stored call is what its name says: how many records of how many are played,
/// or 19; and where it names the answers, these.
#[test]
fn stored_calls_do_what_they_are_called() {
    let calls = stored_calls::blocks();
    let names: BTreeSet<&str> = calls.iter().map(|stored| stored.name).collect();
    assert!(calls.len() >= 100 && names.len() == calls.len());
    let mut answers = BTreeSet::new();
    for stored in &calls {
        let outcome = made(&stored.call);
        assert!(outcome == by_single_calls(&stored.call), "{}", stored.name);
        let (head, rest) = stored.name.split_once(": ").unwrap();
        let played = outcome.replies.played;
        let whole = stored.call.stretch.len() / RECORD_BYTES;
        let expected = match outcome.replies.answer {
            BlockAnswer::Played => format!("{played} of {whole}"),
            BlockAnswer::AnswersTooShort => "19".into(),
        };
        assert_eq!(head, expected, "{rest}");
        if let Some(rows) = rest.strip_prefix("rows ") {
            let numbers: Vec<u8> = rows.split(", ").map_while(|row| row.parse().ok()).collect();
            assert_eq!(outcome.answers, numbers, "{rest}");
        }
        answers.extend(&outcome.answers[..played]);
    }
    let refusals = Answer::ALL.iter().map(|answer| answer.number());
    let all: BTreeSet<u8> = refusals.filter(|&number| number != 1).collect();
    let missing: Vec<&u8> = all.difference(&answers).collect();
    assert!(missing.is_empty(), "{missing:?}");
}

#[test]
fn the_answers_have_the_documents_numbers() {
    assert_eq!(BlockAnswer::Played.number(), 0);
    assert_eq!(BlockAnswer::AnswersTooShort.number(), 19);
}
