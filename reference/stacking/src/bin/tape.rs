//! The tape program: plays a tape from standard input and prints what the book
//! answers.

#![forbid(unsafe_code)]

use stacking::book::record_call;
use stacking::program::{self, Arguments};
use std::process::ExitCode;

const HELP: &str = "\
tape: plays a tape of 24-byte records over a fresh book that starts at day 0

usage: tape < TAPE

Reads the first 4,096 bytes of calendar.bin in the current folder (an absent
file counts as an empty calendar) and plays the first 65,520 bytes of standard
input. Prints for each record its place, answer and number of notices, and a
line `n` code kind day reference premise addressee for each notice; then for
each file `p` premise retailer since, and last `t` accepted refused.
";

fn main() -> ExitCode {
    program::finish("tape", run(Arguments::of_program()))
}

fn run(mut arguments: Arguments) -> Result<(), String> {
    if arguments.flag("--help") {
        return program::print(HELP);
    }
    arguments.end()?;
    program::play_standard_input(record_call)
}
