//! The words of one line, and the numbers among them.

use crate::problem::Fault;
use std::ops::RangeInclusive;

/// The words of a line without its comment.
pub(crate) fn words(line: &str) -> Vec<&str> {
    let said = line.split('#').next().unwrap_or("");
    said.split_whitespace().collect()
}

/// A number in base ten, digits only, that is at most `most`.
pub(crate) fn number(name: &str, word: &str, most: u64) -> Result<u64, Fault> {
    let expected = || format!("a whole number from 0 to {most}");
    if word.is_empty() || !word.bytes().all(|byte| byte.is_ascii_digit()) {
        return Err(Fault::new(
            format!("{name} \"{word}\" is not a number"),
            expected(),
        ));
    }
    match word.parse::<u64>() {
        Ok(value) if value <= most => Ok(value),
        _ => Err(Fault::new(format!("{name} {word} is too big"), expected())),
    }
}

/// Days from the first to the last, both meant: `5` or `5..9`.
pub(crate) fn days(word: &str, most: u64) -> Result<RangeInclusive<u64>, Fault> {
    let (first, last) = word.split_once("..").unwrap_or((word, word));
    let (first, last) = (number("day", first, most)?, number("day", last, most)?);
    if first > last {
        return Err(Fault::new(
            format!("days {word} run backwards"),
            "the earlier day first",
        ));
    }
    Ok(first..=last)
}
