//! The second program's comparer of two tapes.

#![forbid(unsafe_code)]

use agreement::{by_the_sentence, compare, MOST_BYTES};
use stacking::program::{self, read_up_to};
use std::fs::File;
use std::process::ExitCode;

const HELP: &str = "\
compare_tapes: says whether two tapes agree premise by premise

usage: compare_tapes [--sentence] OURS THEIRS

Prints one line: `yes 0`; `no 0` if the day marks differ; `no P`, where P is the
smallest premise at which the tapes differ. With --sentence it does so by
document 02's sentence, word by word.
";

fn main() -> ExitCode {
    let mut words: Vec<_> = std::env::args_os().skip(1).collect();
    if words.iter().any(|word| word == "--help") {
        return program::finish("compare_tapes", program::print(HELP));
    }
    let sentence = words.iter().position(|word| word == "--sentence");
    if let Some(place) = sentence {
        words.remove(place);
    }
    let [ours, theirs] = words.as_slice() else {
        let message = "it takes two tapes, ours and theirs (see --help)".to_string();
        return program::finish("compare_tapes", Err(message));
    };
    let answer = read(ours).and_then(|ours| {
        let theirs = read(theirs)?;
        Ok(match sentence {
            None => compare(&ours, &theirs),
            Some(_) => by_the_sentence(&ours, &theirs),
        })
    });
    program::finish(
        "compare_tapes",
        answer.and_then(|answer| program::print(&format!("{answer}\n"))),
    )
}

/// A tape, whole.
fn read(path: &std::ffi::OsString) -> Result<Vec<u8>, String> {
    let bytes = File::open(path)
        .and_then(|file| read_up_to(file, MOST_BYTES + 1))
        .map_err(|error| format!("{path:?}: {error}; give a tape that can be read"))?;
    match bytes.len() <= MOST_BYTES {
        true => Ok(bytes),
        false => Err(format!(
            "{path:?} has more than {MOST_BYTES} bytes; give a shorter tape"
        )),
    }
}
