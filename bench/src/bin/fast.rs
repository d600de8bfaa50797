//! The tape program of the second program made fast, for `bench/run`.

#![forbid(unsafe_code)]

use bench::book::{record_call, record_call_untested};
use stacking::program::{self, Arguments};
use std::process::ExitCode;

const HELP: &str = "\
fast: plays a tape as the second program's `tape` does, and faster

usage: fast [--untested] < TAPE

--untested  plays without row 2's test of the book at every record
";

fn main() -> ExitCode {
    program::finish("fast", run(Arguments::of_program()))
}

fn run(mut arguments: Arguments) -> Result<(), String> {
    if arguments.flag("--help") {
        return program::print(HELP);
    }
    let call = match arguments.flag("--untested") {
        true => record_call_untested,
        false => record_call,
    };
    arguments.end()?;
    program::play_standard_input(call)
}
