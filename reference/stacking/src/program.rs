//! What the programs share: arguments in, text out, and how they end.

use crate::book::RecordCall;
use crate::days::CALENDAR_BYTES;
use crate::tape::{play_by, TAPE_BYTES};
use std::fmt::Display;
use std::fs::File;
use std::io::{self, BufWriter, ErrorKind, Read, Write};
use std::process::ExitCode;

const CALENDAR: &str = "calendar.bin";

/// The arguments of a program, taken one by one by their names.
pub struct Arguments {
    left: Vec<String>,
}

impl Arguments {
    /// The arguments after the program's name. One that is no text is shown
    /// with its odd bytes replaced, and no program takes such a one.
    pub fn of_program() -> Arguments {
        Arguments {
            left: std::env::args_os()
                .skip(1)
                .map(|argument| argument.to_string_lossy().into_owned())
                .collect(),
        }
    }

    /// Takes `name`, if it is there.
    pub fn flag(&mut self, name: &str) -> bool {
        match self.left.iter().position(|argument| argument == name) {
            None => false,
            Some(place) => {
                self.left.remove(place);
                true
            }
        }
    }

    /// Takes `name` with the value after it, if it is there.
    pub fn value(&mut self, name: &str) -> Result<Option<String>, String> {
        let Some(place) = self.left.iter().position(|argument| argument == name) else {
            return Ok(None);
        };
        if place + 1 == self.left.len() {
            return Err(format!("{name} needs a value after it (see --help)"));
        }
        self.left.remove(place);
        Ok(Some(self.left.remove(place)))
    }

    /// Takes `name` with the number after it, if it is there.
    pub fn number(&mut self, name: &str) -> Result<Option<u64>, String> {
        self.value(name)?
            .map(|text| parse_number(name, &text))
            .transpose()
    }

    /// Takes `name` with the value after it, which must be there.
    pub fn needed(&mut self, name: &str) -> Result<String, String> {
        let value = self.value(name)?;
        value.ok_or_else(|| format!("it needs {name} (see --help)"))
    }

    /// Takes `name` with the number after it, which must be there.
    pub fn needed_number(&mut self, name: &str) -> Result<u64, String> {
        let number = self.number(name)?;
        number.ok_or_else(|| format!("it needs {name} (see --help)"))
    }

    /// Takes the next argument, which has no name, as a number.
    pub fn next_number(&mut self, what: &str) -> Result<u64, String> {
        if self.left.is_empty() {
            return Err(format!("{what} is missing (see --help)"));
        }
        parse_number(what, &self.left.remove(0))
    }

    /// Takes what a maker of random calls needs.
    pub fn seed_and_count(&mut self) -> Result<(u64, u64), String> {
        let needed = "--make needs --seed and --count (see --help)";
        let seed = self.number("--seed")?.ok_or(needed)?;
        let count = self.number("--count")?.ok_or(needed)?;
        Ok((seed, count))
    }

    /// All must have been taken by now.
    pub fn end(self) -> Result<(), String> {
        match self.left.first() {
            None => Ok(()),
            Some(other) => Err(format!(
                "it does not know the argument {other:?} (see --help)"
            )),
        }
    }
}

fn parse_number(what: &str, text: &str) -> Result<u64, String> {
    text.parse()
        .map_err(|_| format!("{what} takes a number from 0 on, not {text:?} (see --help)"))
}

/// How a program ends: on an error with a message and a status that says so.
pub fn finish(name: &str, result: Result<(), String>) -> ExitCode {
    match result {
        Ok(()) => ExitCode::SUCCESS,
        Err(message) => {
            eprintln!("{name}: {message}");
            ExitCode::FAILURE
        }
    }
}

/// The first bytes of a source, however many pieces they come in.
pub fn read_up_to(source: impl Read, limit: usize) -> io::Result<Vec<u8>> {
    let mut bytes = Vec::new();
    source.take(limit as u64).read_to_end(&mut bytes)?;
    Ok(bytes)
}

/// Writes to standard output, buffered; a failed write is an error.
pub fn write_out(write: impl FnOnce(&mut dyn Write) -> io::Result<()>) -> Result<(), String> {
    let mut out = BufWriter::new(io::stdout().lock());
    write(&mut out).and_then(|()| out.flush()).map_err(|error| {
        format!(
            "cannot write to standard output: {error}; \
             what was written is incomplete, so run it again"
        )
    })
}

/// Prints a text.
pub fn print(text: &str) -> Result<(), String> {
    write_out(|out| out.write_all(text.as_bytes()))
}

/// Writes a file; one that can't be written is an error.
pub fn write_file(path: &str, bytes: &[u8]) -> Result<(), String> {
    std::fs::write(path, bytes)
        .map_err(|error| format!("{path}: {error}; give a file that can be written"))
}

/// A program that writes text as bytes, and with `--text` bytes as text.
pub fn text_and_back(
    mut arguments: Arguments,
    help: &str,
    encode: fn(&str) -> Result<Vec<u8>, String>,
    decode: fn(&[u8]) -> Result<String, String>,
) -> Result<(), String> {
    if arguments.flag("--help") {
        return print(help);
    }
    let back = arguments.flag("--text");
    arguments.end()?;
    let bytes = read_standard_input("standard input")?;
    if back {
        return print(&decode(&bytes)?);
    }
    let text = String::from_utf8(bytes)
        .map_err(|_| "the text has a byte that is no text; expected UTF-8")?;
    let encoded = encode(&text)?;
    write_out(|out| out.write_all(&encoded))
}

/// Writes so many calls, each made anew.
pub fn write_made(count: u64, mut make: impl FnMut() -> Vec<u8>) -> Result<(), String> {
    write_out(|out| {
        for _ in 0..count {
            out.write_all(&make())?;
        }
        Ok(())
    })
}

/// Writes stored calls, or their names, a line each.
pub fn write_stored(
    names: bool,
    calls: impl Iterator<Item = (impl Display, Vec<u8>)>,
) -> Result<(), String> {
    write_out(|out| {
        for (name, bytes) in calls {
            match names {
                true => writeln!(out, "{name}")?,
                false => out.write_all(&bytes)?,
            }
        }
        Ok(())
    })
}

/// Plays the tape on standard input with `calendar.bin` of the current folder.
pub fn play_standard_input(call: RecordCall) -> Result<(), String> {
    let calendar = read_calendar()?;
    let tape = read_tape()?;
    write_out(|out| play_by(call, &calendar, &tape, out))
}

/// The calls on standard input, to its end.
pub fn read_calls() -> Result<Vec<u8>, String> {
    read_standard_input("the calls from standard input")
}

fn read_standard_input(what: &str) -> Result<Vec<u8>, String> {
    let mut bytes = Vec::new();
    let read = io::stdin().lock().read_to_end(&mut bytes);
    read.map_err(|error| format!("cannot read {what}: {error}; give a readable file or pipe"))?;
    Ok(bytes)
}

/// The tape on standard input, as far as it is played.
pub fn read_tape() -> Result<Vec<u8>, String> {
    read_up_to(io::stdin().lock(), TAPE_BYTES).map_err(|error| {
        format!("cannot read the tape from standard input: {error}; give a readable file or pipe")
    })
}

/// The calendar; an absent file counts as empty, an unreadable one is an error.
pub fn read_calendar() -> Result<Vec<u8>, String> {
    match File::open(CALENDAR).and_then(|file| read_up_to(file, CALENDAR_BYTES)) {
        Err(error) if error.kind() == ErrorKind::NotFound => Ok(Vec::new()),
        read => read.map_err(|error| {
            format!(
                "cannot read {CALENDAR} in the current folder: {error}; \
                 make it a readable file, or remove it to play with an empty calendar"
            )
        }),
    }
}
