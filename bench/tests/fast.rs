//! The fast second program does what the plain one does, and the tapes that are
//! timed keep it busy.

use bench::book::{record_call, record_call_untested, record_calls};
use bench::tapes::{marks_tape, mixed_tape, Tape};
use bench::well_kept::is_well_kept;
use stacking::answer::Answer;
use stacking::block_call::BlockCall;
use stacking::book::{Book, RecordCall};
use stacking::random::Random;
use stacking::sample::{self, block_call, call, damage, well_kept_book, TapeOptions};
use stacking::single_call::Call;
use stacking::stored_calls;
use stacking::stretch::{RecordCalls, Replies};
use stacking::tape::play_by;
use stacking::waiting::waiting_orders;
use std::process::{Command, Output};

/// Everything that comes back from a call.
fn made(call: &Call, record_call: RecordCall) -> (Answer, usize, Book, Vec<u8>) {
    let mut book = call.book.clone();
    let mut buffer = vec![165; call.buffer_length];
    let (answer, count) = record_call(&mut book, &call.calendar, &call.record, &mut buffer);
    (answer, count, book, buffer)
}

fn lines(call: RecordCall, calendar: &[u8], tape: &[u8]) -> String {
    let mut out = Vec::new();
    play_by(call, calendar, tape, &mut out).unwrap();
    String::from_utf8(out).unwrap()
}

#[test]
fn single_calls_give_the_same() {
    let mut random = Random::new(2);
    let mut damaged = 0;
    for _ in 0..6_000 {
        let call = call(&mut random);
        let plain = made(&call, stacking::book::record_call);
        assert_eq!(made(&call, record_call), plain);
        match plain.0 {
            Answer::BookNotWellKept => damaged += 1,
            _ => assert_eq!(made(&call, record_call_untested), plain),
        }
    }
    assert!(damaged > 500, "{damaged}");
}

/// Everything that comes back from a call with many records.
fn block_made(call: &BlockCall, calls: RecordCalls) -> (Replies, Book, Vec<u8>, Vec<u8>) {
    let mut book = call.book.clone();
    let mut answers = vec![165; call.answers_length];
    let mut notices = vec![165; call.notices_length];
    let replies = calls(
        &mut book,
        &call.calendar,
        &call.stretch,
        &mut answers,
        &mut notices,
    );
    (replies, book, answers, notices)
}

#[test]
fn calls_with_many_records_give_the_same() {
    let mut random = Random::new(4);
    let stored = stored_calls::blocks().into_iter().map(|stored| stored.call);
    for call in (0..1_200).map(|_| block_call(&mut random)).chain(stored) {
        let plain = block_made(&call, stacking::stretch::record_calls);
        assert!(block_made(&call, record_calls) == plain);
    }
}

/// References that end alike are compared one by one, so that they come up here.
#[test]
fn well_kept_is_the_same() {
    let mut random = Random::new(1);
    for _ in 0..6_000 {
        let mut book = well_kept_book(&mut random);
        let ends_alike = random.chance(1, 2);
        for order in book.files.iter_mut().flat_map(|file| file.held_mut()) {
            if ends_alike {
                order.reference = order.reference.wrapping_mul(64);
            }
        }
        if random.chance(2, 3) {
            damage(&mut random, &mut book);
        }
        assert_eq!(
            is_well_kept(&book),
            stacking::well_kept::is_well_kept(&book)
        );
    }
}

/// The totals are those of the plain program after every record of a tape.
#[test]
fn totals_are_the_same() {
    let mut notices = vec![0; 24_576];
    for tape in [marks_tape(), mixed_tape()] {
        let mut book = Book::fresh(0);
        for record in tape.bytes.chunks(24) {
            record_call_untested(&mut book, &tape.calendar, record, &mut notices);
            assert_eq!(waiting_orders(&book), book.counted());
        }
    }
}

#[test]
fn tapes_print_the_same() {
    for seed in 0..40 {
        let mut random = Random::new(seed);
        let calendar = sample::calendar(&mut random);
        let options = TapeOptions {
            records: 500,
            premises: None,
            never_full: false,
        };
        let tape = sample::tape(&mut random, &calendar, &options);
        let plain = lines(stacking::book::record_call, &calendar, &tape);
        assert_eq!(lines(record_call, &calendar, &tape), plain);
        assert_eq!(lines(record_call_untested, &calendar, &tape), plain);
    }
}

fn played(tape: &Tape) -> String {
    lines(stacking::book::record_call, &tape.calendar, &tape.bytes)
}

/// To the end of the tape of marks the orders keep the marks busy.
#[test]
fn the_marks_have_work_to_the_end() {
    let lines = played(&marks_tape());
    assert!(lines.ends_with("t 1896 0\n"));
    let mark = |place: usize| {
        let start = format!("\n{place} 0 ");
        let found = lines.find(&start).unwrap() + start.len();
        lines[found..]
            .lines()
            .next()
            .unwrap()
            .parse::<u32>()
            .unwrap()
    };
    // three drops of each file come to their end at the very last mark
    assert_eq!(mark(1_896), 3 * 64);
    let busy = (897..=1_896).filter(|&place| mark(place) > 0).count();
    assert!(busy > 15, "{busy}");
}

#[test]
fn the_mixed_tape_is_mostly_accepted() {
    let lines = played(&mixed_tape());
    let last: Vec<u32> = lines.lines().last().unwrap()[2..]
        .split(' ')
        .map(|number| number.parse().unwrap())
        .collect();
    assert_eq!(last[0] + last[1], 2_730);
    assert!(last[0] > 2_500, "{last:?}");
}

fn run(program: &str, arguments: &str) -> Output {
    Command::new(program)
        .args(arguments.split_whitespace())
        .output()
        .unwrap()
}

fn text(program: &str, arguments: &str) -> String {
    let output = run(program, arguments);
    assert!(output.status.success() && output.stderr.is_empty());
    String::from_utf8(output.stdout).unwrap()
}

const BENCH: &str = env!("CARGO_BIN_EXE_bench");
const FAST: &str = env!("CARGO_BIN_EXE_fast");
const FAST_BLOCKS: &str = env!("CARGO_BIN_EXE_fast_blocks");

#[test]
fn the_tapes_can_be_written_out() {
    let place = std::path::Path::new(env!("CARGO_TARGET_TMPDIR")).join("dump");
    text(BENCH, &format!("--dump {}", place.display()));
    for tape in [marks_tape(), mixed_tape()] {
        let read = |file: &str| std::fs::read(place.join(tape.name).join(file)).unwrap();
        assert!(read("tape.bin") == tape.bytes && read("calendar.bin") == tape.calendar);
    }
}

#[test]
fn bench_prints_a_best_and_a_median() {
    assert_eq!(text(BENCH, "--runs 1").matches("ns a record").count(), 6);
}

/// Both tapes go into one call, and that gives the notices of the tape.
#[test]
fn a_tape_is_one_call() {
    for tape in [marks_tape(), mixed_tape()] {
        let place =
            std::path::Path::new(env!("CARGO_TARGET_TMPDIR")).join(format!("one {}", tape.name));
        std::fs::create_dir_all(&place).unwrap();
        std::fs::write(place.join("calendar.bin"), &tape.calendar).unwrap();
        std::fs::write(place.join("tape.bin"), &tape.bytes).unwrap();
        let on = |file: &str, arguments: &[&str]| {
            let input = std::fs::File::open(place.join(file)).unwrap();
            let mut command = Command::new(FAST_BLOCKS);
            let output = command
                .args(arguments)
                .current_dir(&place)
                .stdin(input)
                .output()
                .unwrap();
            assert!(output.status.success() && output.stderr.is_empty());
            output.stdout
        };
        std::fs::write(place.join("call.bin"), on("tape.bin", &["--call"])).unwrap();
        let printed = String::from_utf8(on("call.bin", &[])).unwrap();
        let notices = |lines: &str| -> Vec<String> {
            let chosen = lines.lines().filter(|line| line.starts_with("n "));
            chosen.map(str::to_owned).collect()
        };
        let expected = notices(&played(&tape));
        let records = tape.bytes.len() / 24;
        let head = format!("c 1 0 {records} {}\n", expected.len());
        assert!(printed.starts_with(&head));
        assert_eq!(notices(&printed), expected);
    }
}

#[test]
fn they_say_what_is_wrong_with_their_arguments() {
    for (program, arguments, hint) in [
        (BENCH, "--runs 0", "at least 1"),
        (BENCH, "fast", "fast"),
        (FAST, "some.tape", "some.tape"),
        (FAST_BLOCKS, "some.calls", "some.calls"),
    ] {
        let output = run(program, arguments);
        assert!(!output.status.success() && output.stdout.is_empty());
        assert!(String::from_utf8(output.stderr).unwrap().contains(hint));
    }
    for program in [BENCH, FAST, FAST_BLOCKS] {
        assert!(text(program, "--help").contains("usage: "));
    }
}

#[test]
fn the_search_says_what_the_maps_say() {
    for seed in 0..120 {
        let pair = agreement::pair::pair(seed, 200);
        assert_eq!(
            bench::agreement::compare(&pair.ours, &pair.theirs),
            agreement::compare(&pair.ours, &pair.theirs),
            "seed {seed}"
        );
    }
}
