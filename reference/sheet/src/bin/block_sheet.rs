//! Plays a tape, and fills in the rows of a sheet from the book.

#![forbid(unsafe_code)]

use sheet::fill::fill;
use sheet::row::{read_rows, MOST_ROWS, ROW_BYTES};
use stacking::program::{self, read_calendar, read_tape, read_up_to, Arguments};
use stacking::tape::played;
use std::fs::File;
use std::process::ExitCode;

const HELP: &str = "\
block_sheet: how many flats of each block are in the book, and how many are dark

usage: block_sheet < TAPE

Plays a tape as the tape program does, with calendar.bin of the current folder,
and fills in the rows of blocks.bin there: at most 64 rows of 28 bytes. Prints
the answer, and then a line `b` block first last files dark for each row.
";

const ROWS: &str = "blocks.bin";

fn main() -> ExitCode {
    program::finish("block_sheet", run(Arguments::of_program()))
}

fn run(mut arguments: Arguments) -> Result<(), String> {
    if arguments.flag("--help") {
        return program::print(HELP);
    }
    arguments.end()?;
    // a byte more than they may have shows that they are too long
    let most = MOST_ROWS * ROW_BYTES + 1;
    let bytes = File::open(ROWS).and_then(|file| read_up_to(file, most));
    let bytes = bytes.map_err(|error| {
        format!("cannot read {ROWS} in the current folder: {error}; make it by sheettext")
    })?;
    let mut rows = read_rows(&bytes)?;
    let book = played(&read_calendar()?, &read_tape()?);
    let answer = fill(&book, &mut rows);
    program::write_out(|out| {
        writeln!(out, "{answer}")?;
        for row in &rows {
            let (first, last) = (row.first, row.last);
            writeln!(
                out,
                "b {} {first} {last} {} {}",
                row.block, row.files, row.dark
            )?;
        }
        Ok(())
    })
}
