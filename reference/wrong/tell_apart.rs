//! Plays every stored tape, also the one whose waiting orders are told, and makes
//! every stored single and block call as each of some wrong programs would, and
//! prints what does not come out as stored. `check` writes the modules of the second
//! program beside it, with their wrong definitions switched by number; 0 is the
//! program as it is.

#![allow(warnings)]

mod agreement;
mod answer;
mod block_call;
mod book;
mod book_bytes;
mod book_lines;
mod clock;
mod date_change;
mod days;
mod evaluation;
mod file;
mod first_in;
mod notice;
mod order;
mod premise;
mod record;
mod single_call;
mod stretch;
mod tape;
mod waiting;
mod well_kept;

use std::panic::catch_unwind;
use std::path::{Path, PathBuf};
use std::sync::atomic::{AtomicUsize, Ordering::Relaxed};

static WRONG: AtomicUsize = AtomicUsize::new(0);

/// The number of the wrong definition that holds.
pub fn wrong() -> usize {
    WRONG.load(Relaxed)
}

/// A stored run: what goes in, by `play`, and what must come out.
struct Stored {
    name: String,
    play: Box<dyn Fn() -> Vec<u8> + std::panic::RefUnwindSafe>,
    expected: Vec<u8>,
}

/// The repository's folder, then the numbers of the definitions to try.
fn main() {
    let mut arguments = std::env::args().skip(1);
    let root = PathBuf::from(arguments.next().expect("the repository's folder"));
    let mut stored = single_calls(&root);
    stored.extend(block_calls(&root));
    stored.extend(tapes(&root));
    stored.push(waiting_orders(&root));
    // a wrong program may also give up; the stored run that it gives up on tells it apart
    std::panic::set_hook(Box::new(|_| ()));
    for number in arguments {
        WRONG.store(number.parse().expect("a number"), Relaxed);
        for run in &stored {
            if catch_unwind(&run.play).ok().as_ref() != Some(&run.expected) {
                println!("{number} {}", run.name);
            }
        }
    }
}

fn read(path: PathBuf) -> Vec<u8> {
    std::fs::read(&path).unwrap_or_else(|error| panic!("{}: {error}", path.display()))
}

fn single_calls(root: &Path) -> Vec<Stored> {
    let folder = root.join("crates/single_calls");
    let calls = single_call::read_calls(&read(folder.join("stdin"))).expect("stored calls");
    let write = |place, call: &single_call::Call, out: &mut Vec<u8>| {
        single_call::write_call(place, &mut call.clone(), out)
    };
    calls_of(folder, "call", calls, write)
}

fn block_calls(root: &Path) -> Vec<Stored> {
    let folder = root.join("crates/block_calls");
    let calls = block_call::read_calls(&read(folder.join("stdin"))).expect("stored calls");
    let write = |place, call: &block_call::BlockCall, out: &mut Vec<u8>| {
        block_call::write_call_by(stretch::record_calls, place, &mut call.clone(), out)
    };
    calls_of(folder, "block", calls, write)
}

/// Calls and the lines that are stored for each of them.
fn calls_of<Call: std::panic::RefUnwindSafe + 'static>(
    folder: PathBuf,
    sort: &str,
    calls: Vec<Call>,
    write: impl Fn(usize, &Call, &mut Vec<u8>) -> std::io::Result<()>
        + Copy
        + std::panic::RefUnwindSafe
        + 'static,
) -> Vec<Stored> {
    let lines = String::from_utf8(read(folder.join("stdout"))).expect("stored lines");
    let mut expected: Vec<Vec<u8>> = Vec::new();
    for line in lines.split_inclusive('\n') {
        if line.starts_with("c ") {
            expected.push(Vec::new());
        }
        let last = expected.last_mut().expect("a call's first line");
        last.extend(line.bytes());
    }
    assert_eq!(calls.len(), expected.len(), "an output for each call");
    let numbered = calls.into_iter().zip(expected).zip(1..);
    numbered
        .map(|((call, expected), place)| Stored {
            name: format!("{sort} {place}"),
            play: Box::new(move || {
                let mut out = Vec::new();
                write(place, &call, &mut out).expect("memory");
                out
            }),
            expected,
        })
        .collect()
}

/// The tape of the program that says what waits at its end.
fn waiting_orders(root: &Path) -> Stored {
    let folder = root.join("crates/waiting");
    let calendar = read(folder.join("data/calendar.bin"));
    let bytes = read(folder.join("stdin"));
    Stored {
        name: "tape of crates/waiting".into(),
        play: Box::new(move || {
            let mut out = Vec::new();
            tape::write_waiting(&tape::played(&calendar, &bytes), &mut out).expect("memory");
            out
        }),
        expected: read(folder.join("stdout")),
    }
}

fn tapes(root: &Path) -> Vec<Stored> {
    let folder = root.join("crates/stored_tapes");
    let files = String::from_utf8(read(folder.join("args"))).expect("names");
    let names = files.lines().filter_map(|file| file.strip_suffix(".tape"));
    names
        .map(|name| {
            let data = |ending| folder.join("data").join(format!("{name}.{ending}"));
            let calendar = std::fs::read(data("calendar")).unwrap_or_default();
            let mut bytes = read(data("tape"));
            bytes.truncate(tape::TAPE_BYTES);
            Stored {
                name: format!("tape {name}"),
                play: Box::new(move || {
                    let mut out = Vec::new();
                    tape::play(&calendar, &bytes, &mut out).expect("memory");
                    out
                }),
                expected: read(root.join("tapes").join(format!("{name}.out"))),
            }
        })
        .collect()
}
