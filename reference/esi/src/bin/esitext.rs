//! A directory of ESI IDs as text: text to bytes and bytes to text.

#![forbid(unsafe_code)]

use esi::text::{decode, encode};
use stacking::program::{self, Arguments};
use std::process::ExitCode;

const HELP: &str = "\
esitext: a directory of ESI IDs as text, and back

usage: esitext < TEXT > DIRECTORY
       esitext --text < DIRECTORY > TEXT

A line of the text is a record: its 17 or 22 digits and its premise number, as
in `10443720001234567 7`. Empty lines and lines that begin with # count for
nothing. Only sound directories are written, either way: of another it says
which line or record breaks which rule, and writes nothing.
";

fn main() -> ExitCode {
    let arguments = Arguments::of_program();
    program::finish(
        "esitext",
        program::text_and_back(arguments, HELP, encode, decode),
    )
}
