//! The tape program, as a function and as a program.

use crate::running::{folder, played, run_on, text};
use crate::support::*;
use stacking::tape::TAPE_BYTES;
use std::path::{Path, PathBuf};
use std::process::{Command, Output};

const TAPE: &str = env!("CARGO_BIN_EXE_tape");

/// Document 01's tape and what it prints.
fn document_tape() -> Vec<u8> {
    [
        create(0, 101),
        new_order(3, 0, 1),
        scheduled(1, 0),
        read(1, 0),
    ]
    .iter()
    .flat_map(|&entry| of_premise(7, entry))
    .collect()
}

const DOCUMENT_TEXT: &str = "\
1 0 0
2 0 1
n 1 3 0 1 7 0
3 0 2
n 3 3 0 1 7 202
n 4 3 0 1 7 101
4 0 0
p 7 202 0
t 4 0
";

#[test]
fn the_documents_tape() {
    assert_eq!(played(&business_days(), &document_tape()), DOCUMENT_TEXT);
}

#[test]
fn an_empty_tape() {
    assert_eq!(played(&[], &[]), "t 0 0\n");
}

#[test]
fn a_short_last_record_is_answered_3() {
    for length in 1..24 {
        assert_eq!(played(&[], &document_tape()[..length]), "1 3 0\nt 0 1\n");
    }
    assert_eq!(
        played(&[], &document_tape()[..25]),
        "1 0 0\n2 3 0\np 7 101 0\nt 1 1\n"
    );
}

#[test]
fn files_are_listed_in_rising_premise_number() {
    let tape: Vec<u8> = [9, 3, u64::MAX]
        .iter()
        .flat_map(|&premise| of_premise(premise, create(4, 0)))
        .collect();
    let lines = "1 0 0\n2 0 0\n3 0 0\np 3 0 4\np 9 0 4\np 18446744073709551615 0 4\nt 3 0\n";
    assert_eq!(played(&[], &tape), lines);
}

fn with_calendar(name: &str, calendar: &[u8]) -> PathBuf {
    let folder = folder(name);
    std::fs::write(folder.join("calendar.bin"), calendar).unwrap();
    folder
}

/// Runs the program in a folder, the tape coming in these pieces.
fn run(folder: &Path, pieces: &[&[u8]]) -> Output {
    run_on(Command::new(TAPE).current_dir(folder), pieces)
}

#[test]
fn the_program_plays_the_documents_tape_in_any_pieces() {
    let folder = with_calendar("pieces", &business_days());
    let tape = document_tape();
    assert_eq!(text(run(&folder, &[&tape])), DOCUMENT_TEXT);
    let bytes: Vec<&[u8]> = tape.chunks(1).collect();
    assert_eq!(text(run(&folder, &bytes)), DOCUMENT_TEXT);
}

#[test]
fn an_absent_calendar_counts_as_empty() {
    let folder = folder("absent");
    let lines = "1 0 0\n2 10 0\n3 13 0\n4 13 0\np 7 101 0\nt 1 3\n";
    assert_eq!(text(run(&folder, &[&document_tape()])), lines);
}

#[test]
fn an_unreadable_calendar_ends_the_program() {
    let folder = folder("unreadable");
    std::fs::create_dir(folder.join("calendar.bin")).unwrap();
    let output = run(&folder, &[&document_tape()]);
    assert!(!output.status.success());
    assert!(output.stdout.is_empty());
    let message = String::from_utf8(output.stderr).unwrap();
    assert!(message.contains("calendar.bin") && message.contains("remove it"));
}

#[test]
fn only_the_first_bytes_are_read() {
    let mut calendar = vec![2; 4_096];
    calendar.extend([0; 100]);
    let folder = with_calendar("first", &calendar);
    let mut tape = vec![0; TAPE_BYTES];
    tape[..96].copy_from_slice(&document_tape());
    let whole = text(run(&folder, &[&tape]));
    assert!(whole.starts_with("1 0 0\n2 10 0\n"));
    assert!(whole.ends_with("2730 3 0\np 7 101 0\nt 1 2729\n"));
    tape.extend(of_premise(8, create(0, 0)));
    assert_eq!(text(run(&folder, &[&tape])), whole);
}

#[test]
fn it_says_what_is_wrong_with_its_arguments() {
    let run = |argument: &str| run_on(Command::new(TAPE).arg(argument), &[]);
    assert!(text(run("--help")).contains("usage: tape"));
    let wrong = run("some.tape");
    assert!(!wrong.status.success() && wrong.stdout.is_empty());
    assert!(String::from_utf8(wrong.stderr)
        .unwrap()
        .contains("some.tape"));
}
