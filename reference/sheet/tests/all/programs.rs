//! The programs: what they write, what they refuse.

use std::fs;
use std::io::Write;
use std::path::PathBuf;
use std::process::{Command, Output, Stdio};

/// A folder of its own for each test.
fn folder(name: &str) -> PathBuf {
    let folder = PathBuf::from(env!("CARGO_TARGET_TMPDIR")).join(format!("sheet-{name}"));
    let _ = fs::remove_dir_all(&folder);
    fs::create_dir_all(&folder).expect("a folder");
    folder
}

fn run(program: &str, folder: &PathBuf, words: &[&str], input: &[u8]) -> Output {
    let mut child = Command::new(program)
        .args(words)
        .current_dir(folder)
        .stdin(Stdio::piped())
        .stdout(Stdio::piped())
        .stderr(Stdio::piped())
        .spawn()
        .expect("it starts");
    let _ = child.stdin.take().expect("its input").write_all(input);
    child.wait_with_output().expect("it ends")
}

fn create(premise: u8, retailer: u8) -> [u8; 24] {
    let mut record = [0; 24];
    record[0] = 1;
    record[8] = premise;
    record[16] = retailer;
    record
}

const BLOCK_SHEET: &str = env!("CARGO_BIN_EXE_block_sheet");
const SHEETTEXT: &str = env!("CARGO_BIN_EXE_sheettext");

#[test]
fn a_sheet_is_filled_in() {
    let folder = folder("filled");
    let rows = run(SHEETTEXT, &folder, &[], b"3 1 9 5 5\n4 10 19\n");
    assert!(rows.status.success());
    fs::write(folder.join("blocks.bin"), rows.stdout).expect("it is written");
    let tape = [create(7, 1), create(9, 0), create(12, 0)].concat();
    let said = run(BLOCK_SHEET, &folder, &[], &tape);
    assert!(said.status.success());
    assert_eq!(said.stdout, b"0\nb 3 1 9 2 1\nb 4 10 19 1 1\n");
}

#[test]
fn bad_rows_are_printed_as_they_were() {
    let folder = folder("bad");
    let rows = run(SHEETTEXT, &folder, &[], b"3 1 9 5 5\n0 10 19 6 6\n");
    fs::write(folder.join("blocks.bin"), rows.stdout).expect("it is written");
    let said = run(BLOCK_SHEET, &folder, &[], &create(7, 1));
    assert_eq!(said.stdout, b"27\nb 3 1 9 5 5\nb 0 10 19 6 6\n");
}

#[test]
fn what_is_no_sheet_is_told() {
    let folder = folder("refused");
    let absent = run(BLOCK_SHEET, &folder, &[], &[]);
    assert!(!absent.status.success() && absent.stdout.is_empty());
    for bytes in [27, 28 * 64 + 1, 28 * 65] {
        fs::write(folder.join("blocks.bin"), vec![1; bytes]).expect("it is written");
        let said = run(BLOCK_SHEET, &folder, &[], &[]);
        assert!(!said.status.success() && said.stdout.is_empty() && !said.stderr.is_empty());
    }
    let text = run(SHEETTEXT, &folder, &[], b"1 2\n");
    assert!(!text.status.success() && text.stdout.is_empty());
    let word = run(SHEETTEXT, &folder, &["--texts"], b"");
    assert!(!word.status.success() && word.stdout.is_empty());
}
