//! Writes random pairs of tapes.

#![forbid(unsafe_code)]

use agreement::pair::pair;
use stacking::program::{self, Arguments};
use std::process::ExitCode;

const HELP: &str = "\
randompair: writes a random pair of tapes to hold against each other

usage: randompair --seed S [--records N] --ours-out FILE --theirs-out FILE
                  --calendar-out FILE

The second tape is the first one shuffled by premises, with one thing changed
or nothing; which, it prints. A tape has at most N records, 300 if not given.
";

fn main() -> ExitCode {
    program::finish("randompair", run(Arguments::of_program()))
}

fn run(mut arguments: Arguments) -> Result<(), String> {
    if arguments.flag("--help") {
        return program::print(HELP);
    }
    let seed = arguments.needed_number("--seed")?;
    let records = arguments.number("--records")?.unwrap_or(300);
    let pair = pair(seed, records as usize);
    for (name, bytes) in [
        ("--ours-out", &pair.ours),
        ("--theirs-out", &pair.theirs),
        ("--calendar-out", &pair.calendar),
    ] {
        program::write_file(&arguments.needed(name)?, bytes)?;
    }
    arguments.end()?;
    program::print(&format!("{:?}\n", pair.change))
}
