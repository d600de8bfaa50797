//! A block sheet as text: text to bytes and bytes to text.

#![forbid(unsafe_code)]

use sheet::text::{decode, encode};
use stacking::program::{self, Arguments};
use std::process::ExitCode;

const HELP: &str = "\
sheettext: the rows of a block sheet as text, and back

usage: sheettext < TEXT > ROWS
       sheettext --text < ROWS > TEXT

A line of the text is a row: its block number, its first and its last premise,
as in `12 1000 1999`; the two counts may follow, and are 0 otherwise. Everything
after # is a comment. Any numbers that fit are written: whether a row is sound
is for the call to say. Of a line that is no row it says which, and writes
nothing.
";

fn main() -> ExitCode {
    let arguments = Arguments::of_program();
    program::finish(
        "sheettext",
        program::text_and_back(arguments, HELP, encode, decode),
    )
}
