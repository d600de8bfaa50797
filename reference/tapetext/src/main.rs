//! The command: text to bytes, bytes to text, and an output in words.

#![forbid(unsafe_code)]

mod command;

use command::{parse, Command};
use std::fs;
use std::io::{self, Read, Write};
use std::path::Path;
use std::process::ExitCode;
use tapetext::{decode, encode_lined, explain, Lined, Tape, PLAYED_BYTES};

/// Exit status for a command line that can't be understood.
const USAGE: u8 = 2;

fn main() -> ExitCode {
    let arguments: Vec<String> = std::env::args().skip(1).collect();
    let command = match parse(&arguments) {
        Ok(command) => command,
        Err(wrong) => {
            eprintln!("tapetext: {wrong}; see tapetext --help");
            return ExitCode::from(USAGE);
        }
    };
    match run(&command) {
        Ok(()) => ExitCode::SUCCESS,
        Err(lines) => {
            for line in lines {
                eprintln!("{line}");
            }
            ExitCode::FAILURE
        }
    }
}

fn run(command: &Command) -> Result<(), Vec<String>> {
    match command {
        Command::Help => write("-", command::HELP.as_bytes()).map_err(|line| vec![line]),
        Command::Encode {
            text,
            tape,
            calendar,
        } => run_encode(text, tape, calendar.as_deref()),
        Command::Decode { tape, calendar } => {
            run_decode(tape, calendar.as_deref()).map_err(|line| vec![line])
        }
        Command::Explain { text, played } => run_explain(text, played),
    }
}

/// Nothing is written before the whole text is accepted and every output is
/// known to have its place.
fn run_encode(file: &str, tape_out: &str, calendar_out: Option<&str>) -> Result<(), Vec<String>> {
    let lined = read_tape(file)?;
    write_tape(file, &lined.tape, tape_out, calendar_out).map_err(|line| vec![line])?;
    if let left_out @ [first, ..] = lined.left_out() {
        eprintln!(
            "{file}: line {first}: warning: {} records from here on are left out; \
             of {} bytes the tape program plays the first {PLAYED_BYTES}",
            left_out.len(),
            lined.tape.records.len()
        );
    }
    Ok(())
}

/// What a file's text says, or a line for each thing that is wrong with it.
fn read_tape(file: &str) -> Result<Lined, Vec<String>> {
    let text = read_text(file).map_err(|line| vec![line])?;
    encode_lined(&text).map_err(|problems| {
        let lines = problems.iter().map(|problem| format!("{file}: {problem}"));
        lines.collect::<Vec<String>>()
    })
}

fn write_tape(
    file: &str,
    tape: &Tape,
    tape_out: &str,
    calendar_out: Option<&str>,
) -> Result<(), String> {
    match (&tape.calendar, calendar_out) {
        (Some(_), None) => Err(format!(
            "{file}: the text has a calendar; expected --calendar OUT"
        )),
        // A calendar left over from another tape would be read in its stead.
        (None, Some(out)) if out != "-" && Path::new(out).exists() => Err(format!(
            "{file}: the text says \"calendar absent\", but {out} exists; expected no such file"
        )),
        (Some(days), Some(out)) => write(out, days).and_then(|()| write(tape_out, &tape.records)),
        (None, _) => write(tape_out, &tape.records),
    }
}

fn run_decode(tape: &str, calendar: Option<&str>) -> Result<(), String> {
    let records = read(tape)?;
    let calendar = calendar.map(read).transpose()?;
    let text = decode(&Tape { calendar, records })?;
    write("-", text.as_bytes())
}

fn run_explain(file: &str, played: &str) -> Result<(), Vec<String>> {
    let lined = read_tape(file)?;
    read_text(played)
        .and_then(|lines| explain(&lined, &lines).map_err(|wrong| format!("{played}: {wrong}")))
        .and_then(|explained| write("-", explained.as_bytes()))
        .map_err(|line| vec![line])
}

/// How a text in UTF-16 begins.
const BYTE_ORDER_MARKS: [[u8; 2]; 2] = [[0xff, 0xfe], [0xfe, 0xff]];

fn read_text(file: &str) -> Result<String, String> {
    let bytes = read(file)?;
    if BYTE_ORDER_MARKS.iter().any(|mark| bytes.starts_with(mark)) {
        return Err(format!(
            "{file}: line 1: a byte order mark of UTF-16; expected UTF-8 without one"
        ));
    }
    String::from_utf8(bytes).map_err(|error| {
        let good = &error.as_bytes()[..error.utf8_error().valid_up_to()];
        let line = 1 + good.iter().filter(|&&byte| byte == b'\n').count();
        format!("{file}: line {line}: a byte that is no text; expected UTF-8")
    })
}

fn read(file: &str) -> Result<Vec<u8>, String> {
    let mut bytes = Vec::new();
    let outcome = match file {
        "-" => io::stdin().read_to_end(&mut bytes).map(|_| ()),
        _ => fs::read(file).map(|read| bytes = read),
    };
    outcome.map_err(|error| format!("{file}: cannot be read: {error}"))?;
    Ok(bytes)
}

fn write(file: &str, bytes: &[u8]) -> Result<(), String> {
    let outcome = match file {
        "-" => {
            let mut out = io::stdout().lock();
            out.write_all(bytes).and_then(|()| out.flush())
        }
        _ => fs::write(file, bytes),
    };
    outcome.map_err(|error| format!("{file}: cannot be written: {error}"))
}
