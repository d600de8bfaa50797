//! Calls with many records by the second program made fast, for `bench/run`.

#![forbid(unsafe_code)]

use bench::book::record_calls;
use stacking::block_call::{call_bytes, read_calls, write_call_by, BlockCall};
use stacking::book::Book;
use stacking::program::{self, Arguments};
use stacking::record::RECORD_BYTES;
use std::process::ExitCode;

const HELP: &str = "\
fast_blocks: makes calls with many records as the second program's `blockcheck`
does, and faster

usage: fast_blocks < CALLS
       fast_blocks --call < TAPE > CALLS

--call  writes the tape as one such call: over a fresh book that starts at day 0,
        with calendar.bin of the current folder, an answer byte for each record
        and 131,072 notice bytes, the most that the proved program takes
";

const NOTICE_BYTES: usize = 131_072;

fn main() -> ExitCode {
    program::finish("fast_blocks", run(Arguments::of_program()))
}

fn run(mut arguments: Arguments) -> Result<(), String> {
    if arguments.flag("--help") {
        return program::print(HELP);
    }
    let makes_call = arguments.flag("--call");
    arguments.end()?;
    match makes_call {
        true => write_tape_as_call(),
        false => make_calls(),
    }
}

fn write_tape_as_call() -> Result<(), String> {
    let calendar = program::read_calendar()?;
    let stretch = program::read_tape()?;
    let call = BlockCall {
        book: Book::fresh(0),
        calendar,
        answers_length: stretch.len() / RECORD_BYTES,
        stretch,
        notices_length: NOTICE_BYTES,
    };
    program::write_out(|out| out.write_all(&call_bytes(&call)))
}

fn make_calls() -> Result<(), String> {
    let calls = read_calls(&program::read_calls()?)?;
    program::write_out(|out| {
        for (place, mut call) in calls.into_iter().enumerate() {
            write_call_by(record_calls, place + 1, &mut call, out)?;
        }
        Ok(())
    })
}
