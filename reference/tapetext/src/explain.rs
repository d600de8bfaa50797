//! What the tape program printed for a text, in words: below each refused
//! record its line and the row that refused it, and at the end the flats
//! without a retailer. The printed lines stay as they are.

use crate::form::RECORD_BYTES;
use crate::row::ROWS;
use crate::{record, Lined};

/// The printed lines with what they mean in words below them; the flats without
/// a retailer stand before the last line. What is not the whole output for this
/// text is told and not explained.
pub fn explain(text: &Lined, played: &str) -> Result<String, String> {
    let mut explained = Explained::default();
    for (number, line) in (1..).zip(played.lines()) {
        let wrong = |what: String| format!("line {number}: {what}");
        if explained.whole {
            return Err(wrong("a line stands after the \"t\" line".to_string()));
        }
        explained.take(text, line).map_err(wrong)?;
    }
    explained.finish(text, played)
}

/// The lines explained so far.
#[derive(Default)]
struct Explained {
    lines: String,
    /// How many records they are of.
    records: usize,
    /// Premise and day of each flat without a retailer.
    dark: Vec<(u64, u64)>,
    /// Whether the last line has come.
    whole: bool,
}

impl Explained {
    fn take(&mut self, text: &Lined, line: &str) -> Result<(), String> {
        let unknown = || format!("\"{line}\" is no line of the tape program");
        let words: Vec<&str> = line.split(' ').collect();
        let numbers = |words: &[&str]| -> Result<Vec<u64>, String> {
            let parsed = words.iter().map(|word| word.parse());
            parsed.collect::<Result<_, _>>().map_err(|_| unknown())
        };
        match (words[0], words.len()) {
            ("n", 7) => numbers(&words[1..]).map(|_| self.say(line)),
            ("p", 4) => {
                let file = numbers(&words[1..])?;
                self.say(line);
                if file[1] == 0 {
                    self.dark.push((file[0], file[2]));
                }
                Ok(())
            }
            ("t", 3) => {
                numbers(&words[1..])?;
                self.say_dark();
                self.say(line);
                self.whole = true;
                Ok(())
            }
            (_, 3) => {
                let answered = numbers(&words)?;
                self.say(line);
                self.take_record(text, answered[0], answered[1])
            }
            _ => Err(unknown()),
        }
    }

    fn take_record(&mut self, text: &Lined, place: u64, answer: u64) -> Result<(), String> {
        if place != self.records as u64 + 1 {
            return Err(format!(
                "record {place} comes after {} of them",
                self.records
            ));
        }
        let Some(&line) = text.lines.get(self.records) else {
            return Err(format!("record {place} is none of the text's"));
        };
        let start = self.records * RECORD_BYTES;
        let rest = &text.tape.records[start..];
        let bytes = &rest[..rest.len().min(RECORD_BYTES)];
        self.records += 1;
        if answer != 0 {
            self.say(&refusal(line, bytes, answer));
        }
        Ok(())
    }

    fn say_dark(&mut self) {
        if self.dark.is_empty() {
            self.say("no flat is without a retailer");
        }
        for (premise, since) in std::mem::take(&mut self.dark) {
            self.say(&format!("premise {premise}: no retailer since day {since}"));
        }
    }

    fn say(&mut self, line: &str) {
        self.lines.push_str(line);
        self.lines.push('\n');
    }

    fn finish(self, text: &Lined, played: &str) -> Result<String, String> {
        if !self.whole || !played.ends_with('\n') {
            return Err("it is not whole: its last line is no \"t\" line".to_string());
        }
        let expected = text.lines.len() - text.left_out().len();
        if self.records != expected {
            let records = self.records;
            return Err(format!("it has {records} records, but the text {expected}"));
        }
        Ok(self.lines)
    }
}

/// A refused record: the line it came from, what it is, and the row in words.
fn refusal(line: usize, record: &[u8], answer: u64) -> String {
    match ROWS.iter().find(|row| row.number == answer) {
        Some(row) => format!(
            "line {line}: {}: {}",
            record::describe(record, row.about),
            row.words
        ),
        None => format!(
            "line {line}: {}: row {answer}, which has no words here",
            record::describe(record, &[])
        ),
    }
}
