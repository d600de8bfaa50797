//! The rows of document 01's table and document 02's in words. A new row is one more here.

use crate::form::{Field, COUNTER, DAY, PREMISE, REFERENCE, RETAILER, WINDOW};

/// A row of the table: its number, what it holds against a record, and which of
/// the record's fields that is about, beside those that say which order it is.
pub(crate) struct Row {
    pub number: u64,
    pub words: &'static str,
    pub about: &'static [Field],
}

const fn row(number: u64, words: &'static str, about: &'static [Field]) -> Row {
    Row {
        number,
        words,
        about,
    }
}

/// Row 3 can be about any field.
const ANY: &[Field] = &[WINDOW, DAY, REFERENCE, PREMISE, RETAILER, COUNTER];

#[rustfmt::skip]
pub(crate) const ROWS: &[Row] = &[
    row(1, "the notice buffer is under 24,576 bytes", &[]),
    row(2, "the book is not well kept", &[]),
    row(3, "its length is not 24, its kind, detail or a field is out of range, or an unused field is not zero", ANY),
    row(4, "there is no such premise", &[]),
    row(5, "the premise is held", &[]),
    row(6, "64 files are held", &[]),
    row(7, "the premise has an open order", &[]),
    row(8, "the reference is held in the file", &[]),
    row(9, "the requested day is more than 90 days after today or more than 270 before it", &[DAY]),
    row(10, "there is no switch date", &[]),
    row(11, "it is not first in", &[]),
    row(12, "the premise has 8 open orders", &[]),
    row(13, "there is no such reference, or on a cancel the order is another retailer's", &[RETAILER]),
    row(14, "its status or kind does not take this record", &[]),
    row(15, "the day is not the one after today", &[DAY]),
    row(16, "its counter is not above the one of the order's last date change", &[COUNTER]),
    row(17, "the order is Scheduled and in window", &[]),
    row(18, "the agreement is not of the retailer named", &[RETAILER]),
    row(26, "its retailer has 4 or more open orders at the premise", &[RETAILER]),
];

#[cfg(test)]
mod tests {
    use super::*;

    #[test]
    fn no_two_rows_share_a_number_or_words() {
        for (place, one) in ROWS.iter().enumerate() {
            for other in &ROWS[..place] {
                assert!(one.number != other.number && one.words != other.words);
            }
        }
    }
}
