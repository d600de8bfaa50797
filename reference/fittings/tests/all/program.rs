//! The program around it: words, room, limits, and that a refusal writes nothing.

use std::io::Write;
use std::process::{Command, Output, Stdio};

/// Runs the converter on some bytes.
fn run(words: &[&str], tape: &[u8]) -> Output {
    let mut child = Command::new(env!("CARGO_BIN_EXE_convert"))
        .args(words)
        .stdin(Stdio::piped())
        .stdout(Stdio::piped())
        .stderr(Stdio::piped())
        .spawn()
        .unwrap();
    let mut input = child.stdin.take().unwrap();
    let tape = tape.to_vec();
    let writer = std::thread::spawn(move || {
        // a program that has given up closes the pipe
        let _ = input.write_all(&tape);
    });
    let output = child.wait_with_output().unwrap();
    writer.join().unwrap();
    output
}

/// Nothing on standard output, and the words on standard error.
fn refused(words: &[&str], tape: &[u8], said: &str) {
    let output = run(words, tape);
    assert!(!output.status.success());
    assert_eq!(output.stdout, []);
    let text = String::from_utf8(output.stderr).unwrap();
    assert!(text.contains(said), "{text:?} does not say {said:?}");
}

#[test]
fn a_refusal_says_its_number() {
    refused(
        &["to24"],
        &[0; 41],
        "convert: 23: 41 bytes are no multiple of 20",
    );
    refused(&["to24", "47"], &[0; 40], "convert: 24: 47 bytes");
    refused(&["to20"], &[1; 24], "convert: 25: ");
}

#[test]
fn words_that_it_does_not_know() {
    refused(&[], &[], "neither to24 nor to20");
    refused(&["to22"], &[], "neither to24 nor to20");
    refused(&["to24", "4x"], &[], "no number of bytes");
    refused(&["to24", "1258273"], &[], "no number of bytes");
    refused(&["to24", "1", "2"], &[], "more than two words");
}

#[test]
fn the_longest_tape_and_a_longer_one() {
    let output = run(&["to24"], &vec![7; 1_048_560]);
    assert!(output.status.success());
    assert_eq!(output.stdout.len(), 1_258_272);
    refused(&["to20"], &vec![0; 1_048_561], "more than 1048560 bytes");
}
