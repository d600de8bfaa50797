//! Bytes to text.

use crate::form::RECORD_BYTES;
use crate::{calendar, record, Tape, CALENDAR_DAYS};

/// The text of a tape and its calendar, one record a line. It says exactly
/// these bytes when encoded. Only a calendar that is longer than the days
/// there are has no text.
pub fn decode(tape: &Tape) -> Result<String, String> {
    let calendar = tape.calendar.as_deref();
    if let Some(days) = calendar.filter(|days| days.len() > CALENDAR_DAYS) {
        let length = days.len();
        return Err(format!(
            "the calendar has {length} bytes; expected at most {CALENDAR_DAYS}"
        ));
    }
    let records = tape.records.chunks(RECORD_BYTES).map(record::print);
    let mut text = String::new();
    for line in calendar::print(calendar).into_iter().chain(records) {
        text.push_str(&line);
        text.push('\n');
    }
    Ok(text)
}
