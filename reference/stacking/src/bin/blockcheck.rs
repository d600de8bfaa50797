//! Makes calls with many records (document 02, change 5) on books handed in as
//! bytes, damaged ones too, and prints what comes back, so that two programs can
//! be compared call by call.
//!
//! # The bytes of one call
//!
//! All numbers low byte first, nothing between them:
//!
//! ```text
//! book                  14,667   as at the top of callcheck.rs
//! calendar length            4   then that many bytes
//! stretch length             4   then that many bytes
//! answer buffer length       4   no bytes: every byte of the buffer is 165
//! notice buffer length       4   no bytes: every byte of the buffer is 165
//! ```
//!
//! Calls follow one another to the end of the input. The proved program takes
//! stretches up to 65,520 bytes, answer buffers up to 4,096 and notice buffers up
//! to 131,072; --make and --stored keep to that.
//!
//! # The lines of one call
//!
//! ```text
//! c place answer played written
//! a i byte                        each record played, i from 0: its answer byte
//! n code K day F P addressee      each notice written, as the tape program
//! x place byte                    each notice byte past those written that is no
//!                                 longer 165
//! y place byte                    each answer byte past the number played that
//!                                 is no longer 165
//! b, f, o                         the book afterwards, as at the top of
//!                                 callcheck.rs
//! ```
//!
//! Places count from 0, in x and y from the start of the buffer; calls count
//! from 1.

#![forbid(unsafe_code)]

use stacking::block_call::{call_bytes, read_calls, single_calls, write_call_by, BlockCall};
use stacking::book_lines::PATTERN;
use stacking::program::{self, Arguments};
use stacking::random::Random;
use stacking::sample::block_call;
use stacking::single_call;
use stacking::stored_calls;
use stacking::stretch::record_calls;
use std::process::ExitCode;

const HELP: &str = "\
blockcheck: makes calls with many records on any book, damaged ones too

usage: blockcheck < CALLS
       blockcheck --singles < CALLS > SINGLE_CALLS
       blockcheck --make --seed S --count C > CALLS
       blockcheck --stored > CALLS
       blockcheck --names

Reads calls as bytes and prints for each the answer, the records' answers, the
notices and the book afterwards. With --singles it writes instead the single
calls that they stand for, one for each record played, as callcheck takes them.
With --make it writes C random calls made from the seed S, with --stored those
that are stored beside the proved program, with --names their names. The layout
of the bytes and of the lines stands at the top of blockcheck.rs.
";

fn main() -> ExitCode {
    program::finish("blockcheck", run(Arguments::of_program()))
}

fn run(mut arguments: Arguments) -> Result<(), String> {
    if arguments.flag("--help") {
        return program::print(HELP);
    }
    if arguments.flag("--make") {
        let (seed, count) = arguments.seed_and_count()?;
        arguments.end()?;
        return make(seed, count);
    }
    let (stored, names) = (arguments.flag("--stored"), arguments.flag("--names"));
    let singles = arguments.flag("--singles");
    arguments.end()?;
    if stored || names {
        return write_stored(names);
    }
    let calls = read_calls(&program::read_calls()?)?;
    match singles {
        true => write_singles(calls),
        false => check(calls),
    }
}

fn make(seed: u64, count: u64) -> Result<(), String> {
    let mut random = Random::new(seed);
    program::write_made(count, || call_bytes(&block_call(&mut random)))
}

fn write_stored(names: bool) -> Result<(), String> {
    let calls = stored_calls::blocks().into_iter();
    program::write_stored(
        names,
        calls.map(|stored| (stored.name, call_bytes(&stored.call))),
    )
}

fn write_singles(calls: Vec<BlockCall>) -> Result<(), String> {
    program::write_out(|out| {
        for call in calls {
            for single in single_calls(&call, played(&call)) {
                out.write_all(&single_call::call_bytes(&single))?;
            }
        }
        Ok(())
    })
}

/// How many records of the stretch the call plays.
fn played(call: &BlockCall) -> usize {
    let mut answers = vec![PATTERN; call.answers_length];
    let mut notices = vec![PATTERN; call.notices_length];
    let (mut book, stretch) = (call.book.clone(), &call.stretch);
    record_calls(
        &mut book,
        &call.calendar,
        stretch,
        &mut answers,
        &mut notices,
    )
    .played
}

fn check(calls: Vec<BlockCall>) -> Result<(), String> {
    program::write_out(|out| {
        for (place, mut call) in calls.into_iter().enumerate() {
            write_call_by(record_calls, place + 1, &mut call, out)?;
        }
        Ok(())
    })
}
