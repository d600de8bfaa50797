//! A directory as text: a line for each record, its digits and its premise
//! number. Empty lines and lines that begin with `#` count for nothing.

use crate::directory::{Broken, Directory, DIRECTORY_BYTES};
use crate::entry::{id_of, text_of, Entry, Rule, RECORD_BYTES};

const EXAMPLE: &str = "17 or 22 digits and a premise number, as in: 10443720001234567 7";

/// The bytes of a directory from its text, or what is wrong with a line.
pub fn encode(text: &str) -> Result<Vec<u8>, String> {
    let mut bytes = Vec::new();
    let mut lines = Vec::new();
    for (place, line) in text.lines().enumerate() {
        let line = line.trim();
        if line.is_empty() || line.starts_with('#') {
            continue;
        }
        let entry = entry_of(line).map_err(|wrong| format!("line {}: {wrong}", place + 1))?;
        bytes.extend(entry.bytes());
        lines.push(place + 1);
    }
    if bytes.len() > DIRECTORY_BYTES {
        let most = DIRECTORY_BYTES / RECORD_BYTES;
        return Err(format!("{} records; expected at most {most}", lines.len()));
    }
    match Directory::read(&bytes) {
        Ok(_) => Ok(bytes),
        Err(broken) => Err(format!(
            "line {}: {}",
            lines[broken.record],
            wrong(broken.rule)
        )),
    }
}

fn entry_of(line: &str) -> Result<Entry, String> {
    let mut words = line.split_whitespace();
    let (Some(digits), Some(premise), None) = (words.next(), words.next(), words.next()) else {
        return Err(format!("not two words; expected {EXAMPLE}"));
    };
    let Some(id) = id_of(digits.as_bytes()) else {
        return Err(format!("{digits:?} is no ESI ID; expected {EXAMPLE}"));
    };
    match premise.parse() {
        Ok(premise) => Ok(Entry { id, premise }),
        Err(_) => Err(format!(
            "{premise:?} is no premise number; expected {EXAMPLE}"
        )),
    }
}

/// The text of a directory, or which rule it breaks at which record, counted
/// from 1.
pub fn decode(directory: &[u8]) -> Result<String, String> {
    let read = Directory::read(directory);
    let read =
        read.map_err(|Broken { rule, record }| format!("record {}: {}", record + 1, wrong(rule)))?;
    let line = |entry: &Entry| format!("{} {}\n", text_of(&entry.id), entry.premise);
    Ok(read.entries().iter().map(line).collect())
}

fn wrong(rule: Rule) -> &'static str {
    match rule {
        Rule::Length => "it is cut short; expected 24 bytes",
        Rule::Count => "its digit count is neither 17 nor 22",
        Rule::UsedHalf => "a half of a digit is above 9",
        Rule::UnusedHalf => "a half without a digit is not 15",
        Rule::PremiseGiven => "its premise number is 0",
        Rule::LastBytes => "one of its last four bytes is not 0",
        Rule::IdOnce => "its ESI ID stands in an earlier one",
        Rule::PremiseOnce => "its premise number stands in an earlier one",
    }
}
