//! The second program's converter between the first fittings' tape and ours.

#![forbid(unsafe_code)]

use fittings::{convert, Way};
use stacking::program::{self, read_up_to};
use std::io;
use std::process::ExitCode;

const HELP: &str = "\
convert: converts a tape between the first fittings' records and ours

usage: convert to24 [ROOM] < OLD > NEW
       convert to20 [ROOM] < OURS > OLD

Reads up to 1,048,560 bytes of standard input. ROOM is how many bytes there are
to write to, at most 1,258,272; without it there are as many as are needed. A
refused tape has nothing on standard output; its number, 23, 24 or 25, stands on
standard error.
";

/// The longest tape that is taken, and the most room.
const MOST_IN: usize = 1_048_560;
const MOST_ROOM: usize = 1_258_272;

fn main() -> ExitCode {
    let words: Vec<String> = std::env::args_os()
        .skip(1)
        .map(|word| word.to_string_lossy().into_owned())
        .collect();
    program::finish("convert", run(&words))
}

fn run(words: &[String]) -> Result<(), String> {
    if words.iter().any(|word| word == "--help") {
        return program::print(HELP);
    }
    let way = match words.first().map(String::as_str) {
        Some("to24") => Way::To24,
        Some("to20") => Way::To20,
        _ => return Err("the first word is neither to24 nor to20 (see --help)".to_string()),
    };
    let room = match words {
        [_] => None,
        [_, room] => Some(parse_room(room)?),
        _ => return Err("there are more than two words (see --help)".to_string()),
    };
    let tape = read_up_to(io::stdin().lock(), MOST_IN + 1).map_err(|error| {
        format!("cannot read the tape from standard input: {error}; give a readable file or pipe")
    })?;
    if MOST_IN < tape.len() {
        return Err(format!(
            "the tape has more than {MOST_IN} bytes; give parts of it"
        ));
    }
    convert_tape(way, &tape, room.unwrap_or(way.needed(tape.len())))
}

fn parse_room(word: &str) -> Result<usize, String> {
    let digits = !word.is_empty() && word.bytes().all(|byte| byte.is_ascii_digit());
    word.parse()
        .ok()
        .filter(|&room| digits && room <= MOST_ROOM)
        .ok_or(format!(
            "{word:?} is no number of bytes up to {MOST_ROOM} (see --help)"
        ))
}

fn convert_tape(way: Way, tape: &[u8], room: usize) -> Result<(), String> {
    let mut output = vec![0; room];
    let conversion = convert(way, tape, &mut output);
    match conversion.answer {
        0 => program::write_out(|out| out.write_all(&output[..conversion.written])),
        23 => Err(format!(
            "23: {} bytes are no multiple of {}",
            tape.len(),
            way.size_in()
        )),
        24 => Err(format!(
            "24: {room} bytes of room, and {} are needed",
            way.needed(tape.len())
        )),
        answer => Err(format!(
            "{answer}: a record has a non-zero byte in 20 to 23"
        )),
    }
}
