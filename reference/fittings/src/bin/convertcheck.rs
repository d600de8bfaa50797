//! Holds another converter program against this one's library, on random tapes
//! of every length: what it writes to standard output, and the number that it
//! gives on standard error.

#![forbid(unsafe_code)]

use fittings::{convert, Way, OLD, OURS};
use stacking::program::{self, Arguments};
use stacking::random::Random;
use std::collections::BTreeMap;
use std::io::Write;
use std::process::{Command, ExitCode, Stdio};

const HELP: &str = "\
convertcheck: holds another converter program against the second program's

usage: convertcheck --program PROGRAM [--seed N] FROM TO

For every length of a tape from FROM up to, not including, TO: a random tape
each way, whole, with a damaged last byte, and back again; and with a buffer
that is a byte short, exact and longer. Prints a line for each that differs,
then how often each number was met.
";

fn main() -> ExitCode {
    program::finish("convertcheck", run(Arguments::of_program()))
}

fn run(mut arguments: Arguments) -> Result<(), String> {
    if arguments.flag("--help") {
        return program::print(HELP);
    }
    let program = arguments
        .value("--program")?
        .ok_or("--program is missing (see --help)")?;
    let seed = arguments.number("--seed")?.unwrap_or(0);
    let from = arguments.next_number("FROM")? as usize;
    let to = arguments.next_number("TO")? as usize;
    arguments.end()?;
    let mut check = Check {
        program,
        met: BTreeMap::new(),
        differing: 0,
    };
    for length in from..to {
        check.length(&mut Random::new(seed.wrapping_add(length as u64)), length)?;
    }
    check.report(to.saturating_sub(from))
}

struct Check {
    program: String,
    met: BTreeMap<u8, usize>,
    differing: usize,
}

impl Check {
    /// Every case of one length.
    fn length(&mut self, random: &mut Random, length: usize) -> Result<(), String> {
        let old: Vec<u8> = (0..length).map(|_| random.bits() as u8).collect();
        self.rooms(Way::To24, &old)?;
        let ours = ours_of(random, length);
        self.rooms(Way::To20, &ours)?;
        if length >= OURS {
            self.rooms(Way::To20, &damaged(random, ours))?;
        }
        self.there_and_back(Way::To24, &whole(&old, OLD))?;
        self.there_and_back(Way::To20, &whole(&ours_of(random, length), OURS))
    }

    /// A tape with room as is needed, a byte short, exact and longer.
    fn rooms(&mut self, way: Way, tape: &[u8]) -> Result<(), String> {
        let needed = way.needed(tape.len());
        self.one(way, tape, None)?;
        for room in [needed.checked_sub(1), Some(needed), Some(needed + 7)]
            .into_iter()
            .flatten()
        {
            self.one(way, tape, Some(room))?;
        }
        Ok(())
    }

    /// A tape of whole records, there with the other program and back with it.
    fn there_and_back(&mut self, way: Way, tape: &[u8]) -> Result<(), String> {
        let back = if way == Way::To24 {
            Way::To20
        } else {
            Way::To24
        };
        let there = run_program(&self.program, way, None, tape)?;
        let again = run_program(&self.program, back, None, &there.0)?;
        if again.0 != tape {
            self.differ(way, tape.len(), "it does not come back");
        }
        Ok(())
    }

    fn one(&mut self, way: Way, tape: &[u8], room: Option<usize>) -> Result<(), String> {
        let mut output = vec![0; room.unwrap_or(way.needed(tape.len()))];
        let expected = convert(way, tape, &mut output);
        *self.met.entry(expected.answer).or_default() += 1;
        let (written, number) = run_program(&self.program, way, room, tape)?;
        if written != output[..expected.written] {
            self.differ(way, tape.len(), &format!("other bytes with room {room:?}"));
        }
        if number != expected.answer {
            let what = format!("{number} and not {} with room {room:?}", expected.answer);
            self.differ(way, tape.len(), &what);
        }
        Ok(())
    }

    fn differ(&mut self, way: Way, length: usize, what: &str) {
        self.differing += 1;
        println!("{way:?}, {length} bytes: {what}");
    }

    fn report(&self, lengths: usize) -> Result<(), String> {
        let met: Vec<String> = self
            .met
            .iter()
            .map(|(n, times)| format!("{n} ({times})"))
            .collect();
        println!("answers met: {}", met.join(", "));
        match self.differing {
            0 => {
                println!("convert: {lengths} lengths give the same");
                Ok(())
            }
            n => Err(format!("{n} cases differ")),
        }
    }
}

/// Random records of ours with zeros behind each, and what is left of the length.
fn ours_of(random: &mut Random, length: usize) -> Vec<u8> {
    (0..length)
        .map(|place| {
            if place % OURS < OLD {
                random.bits() as u8
            } else {
                0
            }
        })
        .collect()
}

/// A tape with one of the last bytes of a record set, mostly of the last one.
fn damaged(random: &mut Random, mut tape: Vec<u8>) -> Vec<u8> {
    let records = tape.len() / OURS;
    let record = if random.chance(3, 4) {
        records - 1
    } else {
        random.below(records)
    };
    tape[record * OURS + OLD + random.below(OURS - OLD)] = 1 << random.below(8);
    tape
}

/// The whole records of a tape.
fn whole(tape: &[u8], size: usize) -> Vec<u8> {
    tape[..tape.len() / size * size].to_vec()
}

/// Runs a converter: what it wrote, and the number on standard error, 0 if there is none.
fn run_program(
    program: &str,
    way: Way,
    room: Option<usize>,
    tape: &[u8],
) -> Result<(Vec<u8>, u8), String> {
    let word = if way == Way::To24 { "to24" } else { "to20" };
    let mut child = Command::new(program)
        .arg(word)
        .args(room.map(|room| room.to_string()))
        .stdin(Stdio::piped())
        .stdout(Stdio::piped())
        .stderr(Stdio::piped())
        .spawn()
        .map_err(|error| format!("cannot run {program}: {error}; build it first"))?;
    // a tape this short fits into the pipe, so that writing it first waits for nobody
    let mut input = child
        .stdin
        .take()
        .ok_or("the program has no standard input")?;
    input
        .write_all(tape)
        .map_err(|error| format!("cannot write to {program}: {error}"))?;
    drop(input);
    let output = child
        .wait_with_output()
        .map_err(|error| format!("cannot wait for {program}: {error}"))?;
    let said = String::from_utf8_lossy(&output.stderr);
    let number = match said.strip_prefix("convert: ") {
        None if said.is_empty() => 0,
        Some(rest) => rest.split(':').next().unwrap_or("").parse().unwrap_or(255),
        None => 255,
    };
    Ok((output.stdout, number))
}
