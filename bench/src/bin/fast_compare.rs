//! The comparer of two tapes by the proved one's search, for `bench/agreement`.

#![forbid(unsafe_code)]

use bench::agreement::compare;
use stacking::program;
use std::process::ExitCode;

fn main() -> ExitCode {
    program::finish("fast_compare", run())
}

fn run() -> Result<(), String> {
    let paths: Vec<_> = std::env::args_os().skip(1).collect();
    let [ours, theirs] = paths.as_slice() else {
        return Err("give two tapes, as in: fast_compare OURS THEIRS".to_string());
    };
    let read = |path| std::fs::read(path).map_err(|error| format!("{path:?}: {error}"));
    let answer = compare(&read(ours)?, &read(theirs)?);
    program::print(&format!("{answer}\n"))
}
