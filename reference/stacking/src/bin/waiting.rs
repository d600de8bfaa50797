//! Plays a tape, and says how many orders of its book are in each open status.
//!
//! It counts them over the files and leaves the totals that the book keeps
//! alone: so it says what another program's totals have to be.

#![forbid(unsafe_code)]

use stacking::program::{self, read_calendar, read_tape, Arguments};
use stacking::tape::{played, write_waiting};
use std::process::ExitCode;

const HELP: &str = "\
waiting: how many orders are in each open status, after a tape

usage: waiting < TAPE

Plays a tape as the tape program does: the first 65,520 bytes of standard input,
with the first 4,096 bytes of calendar.bin in the current folder (an absent file
counts as an empty calendar), over a fresh book that starts at day 0. Prints one
line: `q` and how many orders are In Review, Permit Pending, Scheduled and Cancel
Pending.
";

fn main() -> ExitCode {
    program::finish("waiting", run(Arguments::of_program()))
}

fn run(mut arguments: Arguments) -> Result<(), String> {
    if arguments.flag("--help") {
        return program::print(HELP);
    }
    arguments.end()?;
    let book = played(&read_calendar()?, &read_tape()?);
    program::write_out(|out| write_waiting(&book, out))
}
