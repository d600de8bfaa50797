//! Writes random tapes, and tells what they cover.

#![forbid(unsafe_code)]

mod coverage;

use coverage::Coverage;
use stacking::program::{self, Arguments};
use stacking::random::Random;
use stacking::record::RECORD_BYTES;
use stacking::sample::{calendar, shuffle, tape, TapeOptions};
use stacking::tape::TAPE_BYTES;
use std::process::ExitCode;

const HELP: &str = "\
randomtape: writes a random tape, and the calendar it is for

usage: randomtape --seed S [--records N] [--premises M] [--no-full]
                  [--calendar-out FILE] [--shuffle T]  > TAPE
       randomtape --coverage FROM TO [--records N] [--premises M] [--no-full]

--seed S             everything is made from this number
--records N          that many records, up to 2,730 (1,000 if not given); the
                     last may be short
--premises M         about that many premises (chosen by the seed if not given)
--no-full            leaves out creates that would find the book full, so that
                     no record is answered 6
--calendar-out FILE  writes the seed's calendar there
--shuffle T          as --no-full, and shuffled between premises with seed T:
                     each premise's own records and the day marks keep their
                     order. Compare with the same seed, --no-full, no --shuffle.
--coverage FROM TO   plays the tapes of the seeds from FROM up to, not
                     including, TO and prints what they met
";

const DEFAULT_RECORDS: u64 = 1_000;

fn main() -> ExitCode {
    program::finish("randomtape", run(Arguments::of_program()))
}

fn run(mut arguments: Arguments) -> Result<(), String> {
    if arguments.flag("--help") {
        return program::print(HELP);
    }
    let shuffle_seed = arguments.number("--shuffle")?;
    let options = TapeOptions {
        records: records(&mut arguments)?,
        premises: premises(&mut arguments)?,
        never_full: arguments.flag("--no-full") || shuffle_seed.is_some(),
    };
    if arguments.flag("--coverage") {
        let from = arguments.next_number("FROM of --coverage")?;
        let to = arguments.next_number("TO of --coverage")?;
        arguments.end()?;
        return print_coverage(from, to, &options);
    }
    let seed = arguments
        .number("--seed")?
        .ok_or("it needs --seed or --coverage (see --help)")?;
    let calendar_out = arguments.value("--calendar-out")?;
    arguments.end()?;
    write_tape(seed, &options, calendar_out, shuffle_seed)
}

fn records(arguments: &mut Arguments) -> Result<usize, String> {
    let most = (TAPE_BYTES / RECORD_BYTES) as u64;
    match arguments.number("--records")?.unwrap_or(DEFAULT_RECORDS) {
        count if count <= most => Ok(count as usize),
        count => Err(format!(
            "--records {count} is more than a tape is played for; give at most {most}"
        )),
    }
}

fn premises(arguments: &mut Arguments) -> Result<Option<usize>, String> {
    const MOST: u64 = 10_000;
    match arguments.number("--premises")? {
        None => Ok(None),
        Some(count) if (1..=MOST).contains(&count) => Ok(Some(count as usize)),
        Some(count) => Err(format!(
            "--premises {count} is out of range; give 1 to {MOST}"
        )),
    }
}

/// The calendar and the tape of a seed.
fn sample(seed: u64, options: &TapeOptions) -> (Vec<u8>, Vec<u8>) {
    let mut random = Random::new(seed);
    let days = calendar(&mut random);
    let bytes = tape(&mut random, &days, options);
    (days, bytes)
}

fn write_tape(
    seed: u64,
    options: &TapeOptions,
    calendar_out: Option<String>,
    shuffle_seed: Option<u64>,
) -> Result<(), String> {
    let (days, mut bytes) = sample(seed, options);
    if let Some(shuffle_seed) = shuffle_seed {
        bytes = shuffle(&mut Random::new(shuffle_seed), &days, &bytes);
    }
    if let Some(path) = calendar_out {
        std::fs::write(&path, &days).map_err(|error| {
            format!("cannot write the calendar to {path}: {error}; give a file that can be written")
        })?;
    }
    program::write_out(|out| out.write_all(&bytes))
}

fn print_coverage(from: u64, to: u64, options: &TapeOptions) -> Result<(), String> {
    let mut coverage = Coverage::default();
    for seed in from..to {
        let (days, bytes) = sample(seed, options);
        coverage.play(&days, &bytes);
    }
    program::write_out(|out| coverage.write(out))
}
