//! The programs: lines, messages and how they end.

use crate::rules::{LONG, SHORT};
use std::fs;
use std::io::Write;
use std::path::PathBuf;
use std::process::{Command, Output, Stdio};

/// A file of its own for a test.
fn file(name: &str, bytes: &[u8]) -> PathBuf {
    let path = PathBuf::from(env!("CARGO_TARGET_TMPDIR")).join(name);
    fs::write(&path, bytes).unwrap();
    path
}

fn esi(directory: &PathBuf, texts: &[&str]) -> Output {
    Command::new(env!("CARGO_BIN_EXE_esi"))
        .arg(directory)
        .args(texts)
        .output()
        .unwrap()
}

fn esitext(arguments: &[&str], input: &[u8]) -> Output {
    let mut child = Command::new(env!("CARGO_BIN_EXE_esitext"))
        .args(arguments)
        .stdin(Stdio::piped())
        .stdout(Stdio::piped())
        .stderr(Stdio::piped())
        .spawn()
        .unwrap();
    child.stdin.take().unwrap().write_all(input).unwrap();
    child.wait_with_output().unwrap()
}

/// A run that fails says what it should, and prints nothing.
fn expect_failure(output: Output, says: &str) {
    let said = String::from_utf8_lossy(&output.stderr).into_owned();
    assert!(!output.status.success() && output.stdout.is_empty());
    assert!(said.contains(says), "{said:?} does not say {says:?}");
}

#[test]
fn a_line_for_each_text() {
    let directory = file("both", &[SHORT, LONG].concat());
    let output = esi(
        &directory,
        &[
            "10443720091234567",
            "1044372009123456789012",
            "",
            "10443720091234568",
        ],
    );
    assert!(output.status.success());
    assert_eq!(output.stdout, b"0 7\n0 8\n21 0\n22 0\n");
    let unsound = file("unsound", &[SHORT, SHORT].concat());
    assert_eq!(
        esi(&unsound, &["10443720091234567", "x"]).stdout,
        b"20 0\n20 0\n"
    );
}

#[test]
fn a_directory_that_cannot_be_taken_gets_no_line() {
    let longest = file("longest", &[0; 65_520]);
    assert_eq!(esi(&longest, &["x"]).stdout, b"20 0\n");
    let longer = file("longer", &[0; 65_521]);
    expect_failure(esi(&longer, &["x"]), "more than 65520 bytes");
    expect_failure(esi(&PathBuf::from("no such file"), &["x"]), "no such file");
    let nothing = Command::new(env!("CARGO_BIN_EXE_esi")).output().unwrap();
    expect_failure(nothing, "give a directory");
}

#[test]
fn a_directory_goes_to_text_and_back() {
    let text = b"10443720091234567 7\n1044372009123456789012 8\n";
    let directory = esitext(&[], text);
    assert!(directory.status.success());
    assert_eq!(directory.stdout, [SHORT, LONG].concat());
    let back = esitext(&["--text"], &directory.stdout);
    assert!(back.status.success());
    assert_eq!(back.stdout, text);
    expect_failure(esitext(&[], b"1 2\n"), "line 1");
    expect_failure(esitext(&["--text"], &[SHORT, SHORT].concat()), "record 2");
}

#[test]
fn random_directories_come_from_their_seed() {
    let run = |seed: &str, name: &str| {
        let path = PathBuf::from(env!("CARGO_TARGET_TMPDIR")).join(name);
        let output = Command::new(env!("CARGO_BIN_EXE_randomesi"))
            .args(["--seed", seed, "--directory-out"])
            .arg(&path)
            .output()
            .unwrap();
        assert!(output.status.success());
        (fs::read(path).unwrap(), output.stdout)
    };
    assert_eq!(run("5", "five"), run("5", "five again"));
    assert_ne!(run("5", "five"), run("6", "six"));
}
