//! Makes single record calls on books handed in as bytes, damaged ones too, and
//! prints what comes back, so that two programs can be compared call by call.
//!
//! # The bytes of one call
//!
//! All numbers low byte first, nothing between them, every place of the book
//! written whether it is used or not:
//!
//! ```text
//! book     14,667 bytes
//!   T                    2
//!   number of files      1
//!   In Review            2     how many orders are, by what the book keeps
//!   Permit Pending       2
//!   Scheduled            2
//!   Cancel Pending       2
//!   64 files, each     229 bytes
//!     P                  8
//!     R                  8
//!     S                  2
//!     number of orders   1
//!     window             1
//!     C                  8
//!     moved in           1
//!     8 orders, each    25 bytes
//!       F                4
//!       K                1
//!       Q                8
//!       RD               2
//!       SD               2
//!       status           1
//!       N                1
//!       W                1
//!       told             1
//!       counter          4
//! calendar length        4     then that many bytes
//! record length          4     then that many bytes
//! buffer length          4     no bytes: every byte of the buffer is 165
//! ```
//!
//! Calls follow one another to the end of the input.
//!
//! # The lines of one call
//!
//! ```text
//! c place answer n
//! n code K day F P addressee               each notice, as the tape program
//! x place byte                             each byte after the notices that is
//!                                          no longer 165
//! b T files In-Review Permit-Pending Scheduled Cancel-Pending
//! f place P R S orders window C moved-in   each file place
//! o place place F K Q RD SD status N W told counter
//!                                          each order place of a file place
//! ```
//!
//! Places count from 0, calls from 1. The book is the one afterwards. A place of
//! it that lies past its count and is zero throughout has no line.

#![forbid(unsafe_code)]

use stacking::program::{self, Arguments};
use stacking::random::Random;
use stacking::sample::call;
use stacking::single_call::{call_bytes, read_calls, write_call, Call};
use stacking::stored_calls;
use std::process::ExitCode;

const HELP: &str = "\
callcheck: makes single record calls on any book, damaged ones too

usage: callcheck < CALLS
       callcheck --make --seed S --count C > CALLS
       callcheck --stored > CALLS
       callcheck --names

Reads calls as bytes and prints for each the answer, the notices and the book
afterwards. With --make it writes C random calls made from the seed S, with
--stored those that are stored beside the proved program, with --names their
names. The layout of the bytes and of the lines stands at the top of callcheck.rs.
";

fn main() -> ExitCode {
    program::finish("callcheck", run(Arguments::of_program()))
}

fn run(mut arguments: Arguments) -> Result<(), String> {
    if arguments.flag("--help") {
        return program::print(HELP);
    }
    if arguments.flag("--make") {
        let (seed, count) = arguments.seed_and_count()?;
        arguments.end()?;
        return make(seed, count);
    }
    let (stored, names) = (arguments.flag("--stored"), arguments.flag("--names"));
    arguments.end()?;
    if stored || names {
        return write_stored(names);
    }
    check(read_calls(&program::read_calls()?)?)
}

fn make(seed: u64, count: u64) -> Result<(), String> {
    let mut random = Random::new(seed);
    program::write_made(count, || call_bytes(&call(&mut random)))
}

fn write_stored(names: bool) -> Result<(), String> {
    let calls = stored_calls::all().into_iter();
    program::write_stored(
        names,
        calls.map(|stored| (stored.name, call_bytes(&stored.call))),
    )
}

fn check(calls: Vec<Call>) -> Result<(), String> {
    program::write_out(|out| {
        for (place, mut call) in calls.into_iter().enumerate() {
            write_call(place + 1, &mut call, out)?;
        }
        Ok(())
    })
}
