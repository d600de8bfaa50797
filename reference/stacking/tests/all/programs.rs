//! The programs beside the tape program, run as programs.

use crate::running::{folder, played, printed, run_on};
use stacking::record::{decode, RECORD_BYTES};
use std::process::{Command, Output};

const RANDOMTAPE: &str = env!("CARGO_BIN_EXE_randomtape");
const CALLCHECK: &str = env!("CARGO_BIN_EXE_callcheck");
const BLOCKCHECK: &str = env!("CARGO_BIN_EXE_blockcheck");

/// Runs a program with its arguments in one line.
fn run(program: &str, arguments: &str, input: &[u8]) -> Output {
    let mut command = Command::new(program);
    run_on(command.args(arguments.split_whitespace()), &[input])
}

/// What a run that succeeds prints.
fn output(program: &str, arguments: &str, input: &[u8]) -> Vec<u8> {
    printed(run(program, arguments, input))
}

fn text(program: &str, arguments: &str, input: &[u8]) -> String {
    String::from_utf8(output(program, arguments, input)).unwrap()
}

#[test]
fn a_seed_gives_the_same_tape_again() {
    let tape = output(RANDOMTAPE, "--seed 5 --records 200", b"");
    assert_eq!(tape, output(RANDOMTAPE, "--seed 5 --records 200", b""));
    assert_ne!(tape, output(RANDOMTAPE, "--seed 6 --records 200", b""));
    assert_eq!(tape.len().div_ceil(RECORD_BYTES), 200);
}

#[test]
fn a_shuffled_tape_leads_to_the_same_files() {
    let calendar = folder("shuffled").join("calendar.bin");
    for seed in 0..12 {
        let arguments = format!("--seed {seed} --premises 70 --records 400");
        let with_calendar = format!(
            "{arguments} --no-full --calendar-out {}",
            calendar.display()
        );
        let tape = output(RANDOMTAPE, &with_calendar, b"");
        let shuffled = output(RANDOMTAPE, &format!("{arguments} --shuffle {seed}"), b"");
        assert_ne!(tape, shuffled);
        let days = std::fs::read(&calendar).unwrap();
        let (lines, shuffled_lines) = (played(&days, &tape), played(&days, &shuffled));
        let last = |lines: &str| lines[lines.find("\np ").unwrap()..].to_owned();
        assert_eq!(last(&lines), last(&shuffled_lines));
        assert!(!meets_full_book(&lines) && !meets_full_book(&shuffled_lines));
    }
}

/// Has a record's line the answer 6?
fn meets_full_book(lines: &str) -> bool {
    lines.lines().any(|line| {
        let fields: Vec<&str> = line.split(' ').collect();
        fields.len() == 3 && fields[0] != "t" && fields[1] == "6"
    })
}

#[test]
fn a_hundred_seeds_meet_everything_a_tape_can_meet() {
    let lines = text(RANDOMTAPE, "--coverage 0 100", b"");
    assert!(lines.ends_with("not met: nothing\n"), "{lines}");
}

#[test]
fn calls_are_read_as_they_were_written() {
    for program in [CALLCHECK, BLOCKCHECK] {
        let calls = output(program, "--make --seed 9 --count 60", b"");
        let lines = text(program, "", &calls);
        let heads: Vec<&str> = lines
            .lines()
            .filter(|line| line.starts_with("c "))
            .collect();
        assert_eq!(heads.len(), 60);
        assert!(heads[59].starts_with("c 60 "));
        assert!(!lines.contains("\nx ") && !lines.contains("\ny "));
    }
}

/// A call written by hand, byte by byte as the layout says.
#[test]
fn a_call_byte_by_byte() {
    let mut call = vec![5, 0, 1, 1, 0, 0, 0, 0, 0, 0, 0];
    call.extend([7, 0, 0, 0, 0, 0, 0, 0, 255, 159, 114, 78, 24, 9, 0, 0, 4, 0]);
    call.extend([1, 3, 132, 3, 0, 0, 0, 0, 0, 0, 1]);
    call.extend([9, 0, 0, 0, 1, 123, 16, 165, 212, 232, 0, 0, 0]);
    call.extend([6, 0, 0, 16, 1, 2, 0, 0, 3, 1, 0, 0]);
    call.resize(14_667, 0);
    call.extend([6, 0, 0, 0, 2, 2, 2, 2, 2, 0]);
    let scheduled = [
        4, 0, 8, 0, 9, 0, 0, 0, 7, 0, 0, 0, 0, 0, 0, 0, 0, 0, 0, 0, 0, 0, 0, 0,
    ];
    assert!(decode(&scheduled).is_some());
    call.extend([24, 0, 0, 0]);
    call.extend(scheduled);
    call.extend([0, 96, 0, 0]);
    let lines = "c 1 0 2\nn 3 1 8 9 7 1000000000123\nn 4 1 8 9 7 9999999999999\n\
                 b 5 1 0 0 1 0\nf 0 7 9999999999999 4 1 3 900 1\n\
                 o 0 0 9 1 1000000000123 6 8 3 2 0 1 259\n";
    assert_eq!(text(CALLCHECK, "", &call), lines);
    // the same on a book that is damaged in an unused place
    call[14_666] = 1;
    let lines = "c 1 2 0\nb 5 1 1 0 0 0\nf 0 7 9999999999999 4 1 3 900 1\n\
                 o 0 0 9 1 1000000000123 6 4096 1 2 0 0 259\n\
                 f 63 0 0 0 0 0 0 0\no 63 7 0 0 0 0 0 0 0 0 0 16777216\n";
    assert_eq!(text(CALLCHECK, "", &call), lines);
}

/// A block call written by hand: two new orders for one flat, a rest, an answer
/// byte more than records, room for the second order and no more.
#[test]
fn a_block_call_byte_by_byte() {
    let mut call = vec![5, 0, 1, 0, 0, 0, 0, 0, 0, 0, 0];
    call.extend([7, 0, 0, 0, 0, 0, 0, 0, 101, 0, 0, 0, 0, 0, 0, 0, 4, 0, 0, 2]);
    call.resize(14_667, 0);
    call.extend([3, 0, 0, 0, 0, 0, 0]);
    let order = |reference| {
        [
            3, 2, 9, 0, reference, 0, 0, 0, 7, 0, 0, 0, 0, 0, 0, 0, 202, 0, 0, 0, 0, 0, 0, 0,
        ]
    };
    assert!(decode(&order(1)).is_some());
    call.extend([77, 0, 0, 0]);
    for reference in [1, 2, 3] {
        call.extend(order(reference));
    }
    call.extend([1, 2, 3, 4, 5]);
    let lent = call.len();
    call.extend([4, 0, 0, 0, 24, 96, 0, 0]);
    let lines = "c 1 0 2 2\na 0 0\na 1 0\nn 2 2 9 1 7 0\nn 2 2 9 2 7 0\nb 5 1 2 0 0 0\n\
                 f 0 7 101 4 2 2 0 0\no 0 0 1 2 202 9 4096 1 0 0 0 0\n\
                 o 0 1 2 2 202 9 4096 1 0 0 0 0\n";
    assert_eq!(text(BLOCKCHECK, "", &call), lines);
    // two answer bytes are one too few
    call[lent] = 2;
    let lines = "c 1 19 0 0\nb 5 1 0 0 0 0\nf 0 7 101 4 0 2 0 0\n";
    assert_eq!(text(BLOCKCHECK, "", &call), lines);
    // on a damaged book every record is answered 2
    call[lent] = 3;
    call[2] = 65;
    let refused = "c 1 0 3 0\na 0 2\na 1 2\na 2 2\n";
    let printed = text(BLOCKCHECK, "", &call);
    assert!(printed.starts_with(&format!("{refused}b 5 65 0 0 0 0\nf 0 7 101 4 0 2 0 0\n")));
    // and on one whose totals alone are off, in each of their bytes
    call[2] = 1;
    call[3..11].copy_from_slice(&[1, 2, 3, 4, 5, 6, 7, 8]);
    let lines = format!("{refused}b 5 1 513 1027 1541 2055\nf 0 7 101 4 0 2 0 0\n");
    assert_eq!(text(BLOCKCHECK, "", &call), lines);
}

/// The single calls that block calls stand for, made one by one, give the same
/// answers and notices in their order.
#[test]
fn the_single_calls_of_block_calls_give_what_they_give() {
    let calls = output(BLOCKCHECK, "--make --seed 3 --count 12", b"");
    let blocks = text(BLOCKCHECK, "", &calls);
    let singles = text(CALLCHECK, "", &output(BLOCKCHECK, "--singles", &calls));
    let column = |lines: &str, letter: &str, place: usize| -> Vec<String> {
        let chosen = lines.lines().filter(|line| line.starts_with(letter));
        let field = |line: &str| line.split(' ').nth(place).unwrap().to_owned();
        chosen.map(field).collect()
    };
    assert_eq!(column(&blocks, "a ", 2), column(&singles, "c ", 2));
    let notices = |lines: &str| -> Vec<String> {
        let chosen = lines.lines().filter(|line| line.starts_with("n "));
        chosen.map(str::to_owned).collect()
    };
    assert_eq!(notices(&blocks), notices(&singles));
}

#[test]
fn the_stored_calls_are_read_as_they_were_written() {
    for program in [CALLCHECK, BLOCKCHECK] {
        let names = text(program, "--names", b"");
        let lines = text(program, "", &output(program, "--stored", b""));
        let heads = lines.lines().filter(|line| line.starts_with("c "));
        assert_eq!(heads.count(), names.lines().count());
    }
}

#[test]
fn a_call_that_breaks_off_is_an_error() {
    for program in [CALLCHECK, BLOCKCHECK] {
        let calls = output(program, "--make --seed 9 --count 2", b"");
        let broken = run(program, "", &calls[..calls.len() - 1]);
        assert!(!broken.status.success() && broken.stdout.is_empty());
        assert!(String::from_utf8(broken.stderr)
            .unwrap()
            .contains("call 2 breaks off"));
    }
}

#[test]
fn they_say_what_is_wrong_with_their_arguments() {
    for (program, arguments, hint) in [
        (RANDOMTAPE, "", "--seed"),
        (RANDOMTAPE, "--seed", "needs a value"),
        (RANDOMTAPE, "--seed x", "takes a number"),
        (RANDOMTAPE, "--seed 1 --records 2731", "at most 2730"),
        (RANDOMTAPE, "--seed 1 --premises 0", "give 1 to"),
        (RANDOMTAPE, "--coverage 1", "TO of --coverage"),
        (RANDOMTAPE, "--seed 1 --tape x", "--tape"),
        (CALLCHECK, "--make", "--seed and --count"),
        (CALLCHECK, "calls", "calls"),
        (BLOCKCHECK, "--make --seed 1", "--seed and --count"),
        (BLOCKCHECK, "--single", "--single"),
    ] {
        let output = run(program, arguments, b"");
        assert!(!output.status.success() && output.stdout.is_empty());
        let message = String::from_utf8(output.stderr).unwrap();
        assert!(message.contains(hint), "{message}");
    }
    for program in [RANDOMTAPE, CALLCHECK, BLOCKCHECK] {
        assert!(text(program, "--help", b"").contains("usage: "));
    }
}
