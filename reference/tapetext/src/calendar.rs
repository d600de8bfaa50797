//! The calendar part of a text: a pattern over all days, then the days that
//! differ from it. A later line overrules an earlier one.

use crate::line::{days, number};
use crate::problem::Fault;

/// The most days a calendar has.
pub const CALENDAR_DAYS: usize = 4_096;

const WEEK: usize = 7;
/// Kind of a Sunday or ERCOT holiday.
const HOLIDAY: u8 = 2;

const SHAPES: &str = "\"calendar absent\", \"calendar 0 days\", \
    \"calendar N days, all of kind K\" or \"calendar N days, week of kinds K K K K K K K\"";

/// Whether a line that begins so belongs to the calendar part.
pub(crate) fn is_calendar_word(word: &str) -> bool {
    matches!(word, "calendar" | "holiday" | "day-kind")
}

/// The calendar that a `calendar` line begins with; `None` for an absent one.
pub(crate) fn parse_pattern(words: &[&str]) -> Result<Option<Vec<u8>>, Fault> {
    match words {
        ["calendar", "absent"] => Ok(None),
        ["calendar", "0", "days"] => Ok(Some(Vec::new())),
        ["calendar", length, "days,", "all", "of", "kind", kind] => {
            repeat(length, std::slice::from_ref(kind)).map(Some)
        }
        ["calendar", length, "days,", "week", "of", "kinds", week @ ..] if week.len() == WEEK => {
            repeat(length, week).map(Some)
        }
        _ => Err(Fault::new(
            format!("\"{}\" gives no calendar", words.join(" ")),
            SHAPES,
        )),
    }
}

fn repeat(length: &str, kinds: &[&str]) -> Result<Vec<u8>, Fault> {
    let length = number("calendar length", length, CALENDAR_DAYS as u64)?;
    let kinds: Vec<u8> = kinds
        .iter()
        .map(|word| kind(word))
        .collect::<Result<_, _>>()?;
    let repeated = kinds.into_iter().cycle();
    Ok(repeated.take(length as usize).collect())
}

/// A day's byte. Document 01 knows 0, 1 and 2, and takes any other as 2: a
/// tape must be able to show that.
fn kind(word: &str) -> Result<u8, Fault> {
    number("kind", word, u64::from(u8::MAX)).map(|kind| kind as u8)
}

/// Changes the days that a `holiday` or `day-kind` line names.
pub(crate) fn change(calendar: &mut [u8], words: &[&str]) -> Result<(), Fault> {
    let (range, byte) = match words {
        ["holiday", range] => (range, HOLIDAY),
        ["day-kind", range, word] => (range, kind(word)?),
        _ => {
            return Err(Fault::new(
                format!("\"{}\" names no days and their kind", words.join(" ")),
                "\"holiday D\", \"holiday D..D\", \"day-kind D K\" or \"day-kind D..D K\"",
            ))
        }
    };
    let Some(last) = calendar.len().checked_sub(1) else {
        return Err(Fault::new(
            "the calendar has no days",
            "no line that changes one",
        ));
    };
    for day in days(range, last as u64)? {
        calendar[day as usize] = byte;
    }
    Ok(())
}

/// The lines of a calendar: the pattern that leaves the fewer lines for the
/// days that differ from it, and these lines.
pub(crate) fn print(calendar: Option<&[u8]>) -> Vec<String> {
    let Some(days) = calendar else {
        return vec!["calendar absent".to_string()];
    };
    if days.is_empty() {
        return vec!["calendar 0 days".to_string()];
    }
    let (all, week) = (commonest(days, 1), commonest(days, WEEK));
    let (from_all, from_week) = (changes(days, &all), changes(days, &week));
    // Less than two weeks show no week that repeats.
    let one_kind = days.len() < 2 * WEEK || from_all.len() <= from_week.len();
    let (pattern, changes) = if one_kind {
        (format!("all of kind {}", all[0]), from_all)
    } else {
        let kinds: Vec<String> = week.iter().map(u8::to_string).collect();
        (format!("week of kinds {}", kinds.join(" ")), from_week)
    };
    let head = format!("calendar {} days, {pattern}", days.len());
    std::iter::once(head).chain(changes).collect()
}

/// For each place in a pattern of `length` days the byte that most of its days
/// have, the smallest of several; 0 for a place past the calendar's end.
fn commonest(days: &[u8], length: usize) -> Vec<u8> {
    (0..length)
        .map(|place| {
            let mut counts = [0_usize; 256];
            for &byte in days.iter().skip(place).step_by(length) {
                counts[usize::from(byte)] += 1;
            }
            let most = counts.iter().max();
            counts
                .iter()
                .position(|count| Some(count) == most)
                .unwrap_or(0) as u8
        })
        .collect()
}

/// A line for each stretch of days that differ from the pattern and share a
/// kind.
fn changes(days: &[u8], pattern: &[u8]) -> Vec<String> {
    let differs = |day: usize| days[day] != pattern[day % pattern.len()];
    let mut lines = Vec::new();
    let mut first = 0;
    while first < days.len() {
        let mut last = first;
        if differs(first) {
            while last + 1 < days.len() && differs(last + 1) && days[last + 1] == days[first] {
                last += 1;
            }
            lines.push(change_line(first, last, days[first]));
        }
        first = last + 1;
    }
    lines
}

fn change_line(first: usize, last: usize, kind: u8) -> String {
    let range = if first == last {
        first.to_string()
    } else {
        format!("{first}..{last}")
    };
    if kind == HOLIDAY {
        format!("holiday {range}")
    } else {
        format!("day-kind {range} {kind}")
    }
}

#[cfg(test)]
mod tests {
    use super::*;

    fn printed(days: &[u8]) -> String {
        print(Some(days)).join("\n")
    }

    #[test]
    fn a_calendar_of_one_kind_is_one_line() {
        assert_eq!(printed(&[0; 4_096]), "calendar 4096 days, all of kind 0");
        assert_eq!(printed(&[9]), "calendar 1 days, all of kind 9");
    }

    #[test]
    fn a_working_week_is_one_line_and_one_for_each_holiday() {
        let mut days: Vec<u8> = (0..70).map(|day| [0, 0, 0, 0, 0, 1, 2][day % 7]).collect();
        days[22] = 2;
        days[30..=32].fill(7);
        assert_eq!(
            printed(&days),
            "calendar 70 days, week of kinds 0 0 0 0 0 1 2\nholiday 22\nday-kind 30..32 7"
        );
    }

    #[test]
    fn a_later_line_overrules_an_earlier_one() {
        let mut days = vec![0; 10];
        change(&mut days, &["holiday", "2..5"]).unwrap();
        change(&mut days, &["day-kind", "4", "1"]).unwrap();
        assert_eq!(days, [0, 0, 2, 2, 1, 2, 0, 0, 0, 0]);
    }
}
