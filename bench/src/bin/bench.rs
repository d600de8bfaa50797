//! Measures the fast record calls: nanoseconds a record, with and without row 2's test.

#![forbid(unsafe_code)]

use bench::book::{record_call, record_call_untested};
use bench::tapes::{marks_tape, mixed_tape, Tape};
use stacking::answer::Answer;
use stacking::book::{Book, RecordCall};
use stacking::notice::NOTICE_BUFFER_BYTES;
use stacking::program::{self, Arguments};
use stacking::record::RECORD_BYTES;
use std::hint::black_box;
use std::path::Path;
use std::process::ExitCode;
use std::time::Instant;

const HELP: &str = "\
bench: nanoseconds a record, with and without row 2's test

usage: bench [--runs N]
       bench --dump DIR

Plays two tapes over a fresh book, N times each (101 if not given), and prints
the best and the median run.

marks  64 creates, 512 orders, 320 answers to them, then 1,000 day marks over a
       full book; the marks by themselves and the whole tape
mixed  2,730 records of all kinds over 60 premises, mostly accepted

--dump DIR  writes the tapes and their calendars instead, as DIR/marks/tape.bin,
            DIR/marks/calendar.bin and so on, for another program to play
";

const DEFAULT_RUNS: u64 = 101;

fn main() -> ExitCode {
    program::finish("bench", run(Arguments::of_program()))
}

fn run(mut arguments: Arguments) -> Result<(), String> {
    if arguments.flag("--help") {
        return program::print(HELP);
    }
    let folder = arguments.value("--dump")?;
    let runs = match arguments.number("--runs")?.unwrap_or(DEFAULT_RUNS) {
        0 => return Err("--runs 0 measures nothing; give at least 1".into()),
        runs => runs as usize,
    };
    arguments.end()?;
    match folder {
        Some(folder) => dump(Path::new(&folder)),
        None => measure(runs),
    }
}

fn dump(folder: &Path) -> Result<(), String> {
    for tape in [marks_tape(), mixed_tape()] {
        let place = folder.join(tape.name);
        let write = |name: &str, bytes: &[u8]| std::fs::write(place.join(name), bytes);
        std::fs::create_dir_all(&place)
            .and_then(|()| write("tape.bin", &tape.bytes))
            .and_then(|()| write("calendar.bin", &tape.calendar))
            .map_err(|error| {
                format!(
                    "cannot write the tapes to {}: {error}; give a folder that can be written",
                    place.display()
                )
            })?;
    }
    Ok(())
}

/// With row 2's test, and without.
const CALLS: [(&str, RecordCall); 2] = [
    ("with row 2's test", record_call),
    ("without", record_call_untested),
];

/// Every run times each tape with each call, so that whatever else the machine
/// does falls on all of them.
fn measure(runs: usize) -> Result<(), String> {
    let marks = marks_tape();
    let mixed = mixed_tape();
    let works = [
        Work::new("marks alone", &marks, marks.before_marks),
        Work::new("marks, whole tape", &marks, 0),
        Work::new("mixed", &mixed, 0),
    ];
    let mut times = vec![[const { Vec::new() }; CALLS.len()]; works.len()];
    for _ in 0..runs {
        for (work, times) in works.iter().zip(&mut times) {
            for ((_, call), times) in CALLS.iter().zip(times) {
                times.push(work.time(*call));
            }
        }
    }
    program::write_out(|out| {
        for (work, times) in works.iter().zip(times) {
            writeln!(out, "{}", work.summary())?;
            for ((name, _), times) in CALLS.iter().zip(times) {
                writeln!(out, "  {name:<18} {}", best_and_median(times))?;
            }
        }
        Ok(())
    })
}

fn best_and_median(mut times: Vec<f64>) -> String {
    times.sort_by(f64::total_cmp);
    let (best, median) = (times[0], times[times.len() / 2]);
    format!("best {best:>8.1}  median {median:>8.1}  ns a record")
}

/// A tape to be timed, and the book at the start of the timed part.
struct Work<'a> {
    name: &'static str,
    calendar: &'a [u8],
    records: Vec<&'a [u8]>,
    start: Book,
}

impl<'a> Work<'a> {
    /// The first records are played before the time starts.
    fn new(name: &'static str, tape: &'a Tape, skipped: usize) -> Work<'a> {
        let (before, timed) = tape.bytes.split_at(skipped * RECORD_BYTES);
        let mut start = Book::fresh(0);
        let mut buffer = vec![0; NOTICE_BUFFER_BYTES];
        for record in before.chunks(RECORD_BYTES) {
            record_call(&mut start, &tape.calendar, record, &mut buffer);
        }
        Work {
            name,
            calendar: &tape.calendar,
            records: timed.chunks(RECORD_BYTES).collect(),
            start,
        }
    }

    /// Its name, how many records, accepted ones, notices.
    fn summary(&self) -> String {
        let mut book = self.start.clone();
        let mut buffer = vec![0; NOTICE_BUFFER_BYTES];
        let (mut accepted, mut notices) = (0, 0);
        for record in &self.records {
            let (answer, count) = record_call(&mut book, self.calendar, record, &mut buffer);
            accepted += usize::from(answer == Answer::Accepted);
            notices += count;
        }
        let (name, records) = (self.name, self.records.len());
        format!("{name}: {records} records, {accepted} accepted, {notices} notices")
    }

    /// One run, in nanoseconds a record.
    fn time(&self, call: RecordCall) -> f64 {
        let mut book = self.start.clone();
        let mut buffer = vec![0; NOTICE_BUFFER_BYTES];
        let start = Instant::now();
        for record in &self.records {
            black_box(call(&mut book, self.calendar, record, &mut buffer));
        }
        let spent = start.elapsed();
        black_box(&book);
        spent.as_nanos() as f64 / self.records.len() as f64
    }
}
