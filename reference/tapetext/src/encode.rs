//! Text to bytes.

use crate::calendar::{self, is_calendar_word};
use crate::form::{DAY, RECORD_BYTES};
use crate::line::{days, words};
use crate::problem::{Fault, Problem};
use crate::{record, Lined, Tape};

/// What some editors put before a text; no word begins with it.
const BYTE_ORDER_MARK: char = '\u{feff}';

/// The tape and calendar that a text says, or everything that is wrong with
/// it, line by line.
pub fn encode(text: &str) -> Result<Tape, Vec<Problem>> {
    encode_lined(text).map(|lined| lined.tape)
}

/// The same, with the line that each record came from.
pub fn encode_lined(text: &str) -> Result<Lined, Vec<Problem>> {
    let mut reader = Reader::default();
    let unmarked = text.strip_prefix(BYTE_ORDER_MARK);
    if unmarked.is_some() {
        let fault = Fault::new(
            "a byte order mark stands before the text",
            "UTF-8 without one",
        );
        reader.problems.push(fault.at(1));
    }
    for line in unmarked.unwrap_or(text).lines() {
        reader.line += 1;
        if let Err(fault) = reader.take(&words(line)) {
            reader.problems.push(fault.at(reader.line));
        }
    }
    reader.finish()
}

/// What the lines read so far have said.
#[derive(Default)]
struct Reader {
    /// The number of the line being read.
    line: usize,
    calendar: CalendarPart,
    records: Vec<u8>,
    /// For each record the number of its line.
    lines: Vec<usize>,
    /// A raw record that is short, and the line it stands on.
    short: Option<(usize, usize)>,
    problems: Vec<Problem>,
}

/// What the calendar part has said so far.
#[derive(Default)]
enum CalendarPart {
    #[default]
    Unsaid,
    /// Its line was a bad one: what depends on it is not held against the text.
    Bad,
    Absent,
    Days(Vec<u8>),
}

impl Reader {
    fn take(&mut self, words: &[&str]) -> Result<(), Fault> {
        match words {
            [] => Ok(()),
            [first, ..] if is_calendar_word(first) => self.take_calendar(words),
            [record::DAYS, ..] => self.take_days(words),
            _ => {
                let record = record::parse(words)?;
                self.push(&record);
                Ok(())
            }
        }
    }

    fn take_calendar(&mut self, words: &[&str]) -> Result<(), Fault> {
        if let Some(first) = self.lines.first() {
            if let CalendarPart::Unsaid = self.calendar {
                self.calendar = CalendarPart::Bad;
            }
            let wrong = format!("\"{}\" stands after a record", words[0]);
            let expected = format!("the calendar before the first record (line {first})");
            return Err(Fault::new(wrong, expected));
        }
        match (&mut self.calendar, words[0]) {
            (CalendarPart::Unsaid, "calendar") => self.begin_calendar(words),
            (_, "calendar") => Err(Fault::new(
                "a second calendar",
                "one \"calendar\" line, changed by \"holiday\" and \"day-kind\" lines",
            )),
            (CalendarPart::Days(days), _) => calendar::change(days, words),
            (CalendarPart::Bad, _) => Ok(()),
            (CalendarPart::Unsaid | CalendarPart::Absent, word) => Err(Fault::new(
                format!("\"{word}\" without a calendar to change"),
                "a line \"calendar N days, ...\" before it",
            )),
        }
    }

    fn begin_calendar(&mut self, words: &[&str]) -> Result<(), Fault> {
        self.calendar = CalendarPart::Bad;
        self.calendar = match calendar::parse_pattern(words)? {
            Some(days) => CalendarPart::Days(days),
            None => CalendarPart::Absent,
        };
        Ok(())
    }

    /// `days 1..300` is short for 300 day marks.
    fn take_days(&mut self, words: &[&str]) -> Result<(), Fault> {
        let [_, range] = words else {
            let wrong = format!("days has {} words after it", words.len() - 1);
            return Err(Fault::new(wrong, "\"days FIRST..LAST\""));
        };
        for day in days(range, DAY.most())? {
            self.push(&record::parse(&["day", &day.to_string()])?);
        }
        Ok(())
    }

    fn push(&mut self, record: &[u8]) {
        self.hold_short_against_text();
        self.records.extend_from_slice(record);
        self.lines.push(self.line);
        if record.len() < RECORD_BYTES {
            self.short = Some((self.line, record.len()));
        }
    }

    /// A tape is cut every 24 bytes: a short record with another after it
    /// would be cut elsewhere than the text says.
    fn hold_short_against_text(&mut self) {
        if let Some((line, length)) = self.short.take() {
            let wrong = format!("raw has {length} bytes and is not the last record");
            let expected = format!("{RECORD_BYTES} bytes");
            self.problems.push(Fault::new(wrong, expected).at(line));
        }
    }

    /// A text without a calendar: its first record came too early, or it ends.
    fn no_calendar(&self) -> Problem {
        let (wrong, line) = match self.lines.first() {
            Some(&line) => ("a record without a calendar before it", line),
            None => ("the text ends without a calendar", self.line + 1),
        };
        let expected = "a line \"calendar N days, ...\" or \"calendar absent\" before the records";
        Fault::new(wrong, expected).at(line)
    }

    fn finish(mut self) -> Result<Lined, Vec<Problem>> {
        if let CalendarPart::Unsaid = self.calendar {
            self.problems.push(self.no_calendar());
        }
        if !self.problems.is_empty() {
            self.problems.sort_by_key(|problem| problem.line);
            return Err(self.problems);
        }
        let calendar = match self.calendar {
            CalendarPart::Days(days) => Some(days),
            CalendarPart::Unsaid | CalendarPart::Bad | CalendarPart::Absent => None,
        };
        Ok(Lined {
            tape: Tape {
                calendar,
                records: self.records,
            },
            lines: self.lines,
        })
    }
}
