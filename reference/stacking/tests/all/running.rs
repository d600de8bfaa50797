//! What the tests of programs share: a tape's lines, a folder, and a program
//! run on its input.

use stacking::tape::play;
use std::io::Write;
use std::path::PathBuf;
use std::process::{Command, Output, Stdio};

/// What a tape prints.
pub fn played(calendar: &[u8], tape: &[u8]) -> String {
    let mut out = Vec::new();
    play(calendar, tape, &mut out).unwrap();
    String::from_utf8(out).unwrap()
}

/// An empty folder of its own for a test.
pub fn folder(name: &str) -> PathBuf {
    let path = PathBuf::from(env!("CARGO_TARGET_TMPDIR")).join(name);
    let _ = std::fs::remove_dir_all(&path);
    std::fs::create_dir_all(&path).unwrap();
    path
}

/// Runs a program, its input coming in these pieces.
pub fn run_on(command: &mut Command, pieces: &[&[u8]]) -> Output {
    let mut child = command
        .stdin(Stdio::piped())
        .stdout(Stdio::piped())
        .stderr(Stdio::piped())
        .spawn()
        .unwrap();
    let mut stdin = child.stdin.take().unwrap();
    let pieces: Vec<Vec<u8>> = pieces.iter().map(|piece| piece.to_vec()).collect();
    // beside the program, which may print before it has read all
    let writer = std::thread::spawn(move || {
        for piece in pieces {
            // a program that has read enough, or has given up, closes the pipe
            if stdin
                .write_all(&piece)
                .and_then(|()| stdin.flush())
                .is_err()
            {
                break;
            }
        }
    });
    let output = child.wait_with_output().unwrap();
    writer.join().unwrap();
    output
}

/// What a run printed that succeeded and had nothing to say.
pub fn printed(output: Output) -> Vec<u8> {
    let message = String::from_utf8_lossy(&output.stderr).into_owned();
    assert!(output.status.success() && message.is_empty(), "{message}");
    output.stdout
}

/// The same, as text.
pub fn text(output: Output) -> String {
    String::from_utf8(printed(output)).unwrap()
}
