//! The command itself: files, streams, exit status, and nothing written for a
//! bad text.

use std::fs;
use std::io::Write;
use std::path::{Path, PathBuf};
use std::process::{Command, Output, Stdio};

const TEXT: &str = "calendar 3 days, all of kind 0\nholiday 2\nday 1\n";
const CALENDAR: [u8; 3] = [0, 0, 2];

fn tape() -> Vec<u8> {
    let mut record = vec![0; 24];
    (record[0], record[2]) = (10, 1);
    record
}

/// A folder of its own for each test, empty at its start.
fn folder(name: &str) -> PathBuf {
    let folder = Path::new(env!("CARGO_TARGET_TMPDIR")).join(name);
    let _ = fs::remove_dir_all(&folder);
    fs::create_dir_all(&folder).unwrap();
    folder
}

fn run(folder: &Path, arguments: &[&str], input: &[u8]) -> Output {
    let mut child = Command::new(env!("CARGO_BIN_EXE_tapetext"))
        .args(arguments)
        .current_dir(folder)
        .stdin(Stdio::piped())
        .stdout(Stdio::piped())
        .stderr(Stdio::piped())
        .spawn()
        .unwrap();
    // A command that refuses its arguments ends without reading its input.
    let _ = child.stdin.take().unwrap().write_all(input);
    child.wait_with_output().unwrap()
}

fn said(output: &Output) -> &str {
    std::str::from_utf8(&output.stderr).unwrap()
}

#[test]
fn files_to_files_and_back() {
    let folder = folder("files");
    fs::write(folder.join("t.txt"), TEXT).unwrap();
    let encode = ["encode", "t.txt", "--tape", "t.bin", "--calendar", "c.bin"];
    assert!(run(&folder, &encode, b"").status.success());
    assert_eq!(fs::read(folder.join("t.bin")).unwrap(), tape());
    assert_eq!(fs::read(folder.join("c.bin")).unwrap(), CALENDAR);
    let decode = ["decode", "--tape", "t.bin", "--calendar", "c.bin"];
    assert_eq!(run(&folder, &decode, b"").stdout, TEXT.as_bytes());
}

#[test]
fn standard_streams() {
    let folder = folder("streams");
    let encode = ["encode", "-", "--tape", "-", "--calendar", "c.bin"];
    assert_eq!(run(&folder, &encode, TEXT.as_bytes()).stdout, tape());
    let decode = ["decode", "--tape", "-", "--calendar", "c.bin"];
    assert_eq!(run(&folder, &decode, &tape()).stdout, TEXT.as_bytes());
}

#[test]
fn an_absent_calendar_is_neither_written_nor_read() {
    let folder = folder("absent");
    let text = "calendar absent\nday 1\n";
    let encode = ["encode", "-", "--tape", "t.bin", "--calendar", "c.bin"];
    assert!(run(&folder, &encode, text.as_bytes()).status.success());
    assert!(!folder.join("c.bin").exists());
    let decode = ["decode", "--tape", "t.bin"];
    assert_eq!(run(&folder, &decode, b"").stdout, text.as_bytes());
}

#[test]
fn an_absent_calendar_is_not_given_another_tapes() {
    let folder = folder("left-over");
    fs::write(folder.join("c.bin"), CALENDAR).unwrap();
    let encode = ["encode", "-", "--tape", "t.bin", "--calendar", "c.bin"];
    let output = run(&folder, &encode, b"calendar absent\n");
    assert_eq!(output.status.code(), Some(1));
    let wrong = "-: the text says \"calendar absent\", but c.bin exists; expected no such file\n";
    assert_eq!(said(&output), wrong);
    assert!(!folder.join("t.bin").exists());
}

#[test]
fn a_bad_text_writes_nothing() {
    let folder = folder("bad");
    let text = "calendar absent\nday 1\nday one\nretire\n";
    fs::write(folder.join("t.txt"), text).unwrap();
    for tape in ["t.bin", "-"] {
        let output = run(&folder, &["encode", "t.txt", "--tape", tape], b"");
        assert_eq!(output.status.code(), Some(1));
        assert!(output.stdout.is_empty());
        let wrong = "t.txt: line 3: day \"one\" is not a number; \
                     expected a whole number from 0 to 65535\n\
                     t.txt: line 4: premise is missing; expected \"retire premise N\"\n";
        assert_eq!(said(&output), wrong);
    }
    let names = fs::read_dir(&folder).unwrap();
    assert_eq!(names.count(), 1, "only the text itself");
}

#[test]
fn a_calendar_needs_a_place() {
    let folder = folder("no-place");
    let encode = ["encode", "-", "--tape", "t.bin"];
    let output = run(&folder, &encode, TEXT.as_bytes());
    assert_eq!(output.status.code(), Some(1));
    let wrong = "-: the text has a calendar; expected --calendar OUT\n";
    assert_eq!(said(&output), wrong);
    assert!(!folder.join("t.bin").exists());
}

#[test]
fn bytes_that_are_no_text_are_told_by_line() {
    let folder = folder("no-text");
    let encode = ["encode", "-", "--tape", "t.bin"];
    let output = run(&folder, &encode, b"calendar absent\n# \xff\n");
    assert_eq!(output.status.code(), Some(1));
    let wrong = "-: line 2: a byte that is no text; expected UTF-8\n";
    assert_eq!(said(&output), wrong);
    assert!(!folder.join("t.bin").exists());
}

#[test]
fn a_byte_order_mark_is_named() {
    let folder = folder("mark");
    let encode = ["encode", "-", "--tape", "t.bin"];
    for (text, wrong) in [
        (
            b"\xef\xbb\xbfcalendar absent\n".as_slice(),
            "-: line 1: a byte order mark stands before the text; expected UTF-8 without one\n",
        ),
        (
            b"\xff\xfed\0a\0y\0".as_slice(),
            "-: line 1: a byte order mark of UTF-16; expected UTF-8 without one\n",
        ),
        (
            b"\xfe\xff\0d\0a\0y".as_slice(),
            "-: line 1: a byte order mark of UTF-16; expected UTF-8 without one\n",
        ),
    ] {
        let output = run(&folder, &encode, text);
        assert_eq!(output.status.code(), Some(1));
        assert_eq!(said(&output), wrong);
        assert!(!folder.join("t.bin").exists());
    }
}

#[test]
fn a_tape_that_is_too_long_is_written_with_a_warning() {
    let folder = folder("long");
    let encode = ["encode", "-", "--tape", "t.bin"];
    let text = |last: &str| format!("calendar absent\ndays 1..2729\n{last}\n");
    // 2,730 records are played
    let output = run(&folder, &encode, text("day 1").as_bytes());
    assert!(output.status.success());
    assert_eq!(said(&output), "");
    for (last, warning, bytes) in [
        (
            "day 1\nday 2\nraw 0a",
            "-: line 4: warning: 2 records from here on are left out; \
             of 65545 bytes the tape program plays the first 65520\n",
            65_545,
        ),
        (
            "days 1..3",
            "-: line 3: warning: 2 records from here on are left out; \
             of 65568 bytes the tape program plays the first 65520\n",
            65_568,
        ),
    ] {
        let output = run(&folder, &encode, text(last).as_bytes());
        assert!(output.status.success());
        assert_eq!(said(&output), warning);
        assert_eq!(fs::read(folder.join("t.bin")).unwrap().len(), bytes);
    }
}

#[test]
fn an_output_is_explained() {
    let folder = folder("explain");
    let text = "calendar absent\nday 1\nday 3\n";
    fs::write(folder.join("t.txt"), text).unwrap();
    let explain = ["explain", "t.txt", "--played", "-"];
    let output = run(&folder, &explain, b"1 0 0\n2 15 0\nt 1 1\n");
    assert!(output.status.success());
    assert_eq!(said(&output), "");
    let explained = "1 0 0\n2 15 0\n\
                     line 3: day mark, day 3: the day is not the one after today\n\
                     no flat is without a retailer\nt 1 1\n";
    assert_eq!(output.stdout, explained.as_bytes());
    let cut = run(&folder, &explain, b"1 0 0\n2 15 0\n");
    assert_eq!(cut.status.code(), Some(1));
    assert!(cut.stdout.is_empty());
    assert_eq!(
        said(&cut),
        "-: it is not whole: its last line is no \"t\" line\n"
    );
}

#[test]
fn a_bad_text_explains_nothing() {
    let folder = folder("explain-bad");
    fs::write(folder.join("p.out"), "t 0 0\n").unwrap();
    let output = run(&folder, &["explain", "-", "--played", "p.out"], b"day 1\n");
    assert_eq!(output.status.code(), Some(1));
    assert!(output.stdout.is_empty());
    assert!(said(&output).starts_with("-: line 1: a record without a calendar before it; "));
}

#[test]
fn a_file_that_cannot_be_read_is_told() {
    let folder = folder("unread");
    let output = run(&folder, &["decode", "--tape", "none.bin"], b"");
    assert_eq!(output.status.code(), Some(1));
    assert!(said(&output).starts_with("none.bin: cannot be read: "));
    assert!(output.stdout.is_empty());
}

#[test]
fn a_wrong_command_line_is_told() {
    let output = run(&folder("usage"), &["encode", "t.txt"], b"");
    assert_eq!(output.status.code(), Some(2));
    let wrong = "tapetext: encode needs --tape OUT; see tapetext --help\n";
    assert_eq!(said(&output), wrong);
}

/// The example in the help is a text that the command takes.
#[test]
fn the_help_shows_a_good_text() {
    let folder = folder("help");
    let help = run(&folder, &["--help"], b"").stdout;
    let help = String::from_utf8(help).unwrap();
    let example: String = help
        .lines()
        .skip_while(|line| !line.starts_with("  # Day 0"))
        .take_while(|line| !line.is_empty())
        .map(|line| format!("{line}\n"))
        .collect();
    let encode = ["encode", "-", "--tape", "-", "--calendar", "c.bin"];
    let output = run(&folder, &encode, example.as_bytes());
    assert_eq!(output.stdout.len(), 5 * 24, "{}", said(&output));
}
