//! Writes random sheets, each with a tape and a calendar.

#![forbid(unsafe_code)]

use sheet::row::Row;
use sheet::sample::sample;
use stacking::program::{self, Arguments};
use std::process::ExitCode;

const HELP: &str = "\
randomsheet: writes the rows of a random sheet, and a tape to fill them in from

usage: randomsheet --seed S --blocks-out FILE --calendar-out FILE > TAPE

The ranges begin and end at and beside the premises that the tape's book holds,
at 0 and at the last number; they touch and overlap; any counts are handed in.
Of six seeds in a row three have a bad row: the first, a middle one, the last.
";

fn main() -> ExitCode {
    program::finish("randomsheet", run(Arguments::of_program()))
}

fn run(mut arguments: Arguments) -> Result<(), String> {
    if arguments.flag("--help") {
        return program::print(HELP);
    }
    let seed = arguments.needed_number("--seed")?;
    let blocks = arguments.needed("--blocks-out")?;
    let calendar = arguments.needed("--calendar-out")?;
    arguments.end()?;
    let sample = sample(seed);
    let rows: Vec<u8> = sample.rows.iter().flat_map(Row::bytes).collect();
    program::write_file(&blocks, &rows)?;
    program::write_file(&calendar, &sample.calendar)?;
    program::write_out(|out| out.write_all(&sample.tape))
}
