//! Document 01's own tape, byte for byte, and each form of a record.

use tapetext::{decode, encode, Tape};

const TEXT: &str = "\
calendar 4096 days, all of kind 0
create premise 7 day 0 retailer 101
standard-switch premise 7 reference 1 retailer 202
scheduled premise 7 reference 1 day 0
read premise 7 reference 1 day 0
";

#[rustfmt::skip]
const BYTES: [u8; 96] = [
    1, 0, 0, 0,  0, 0, 0, 0,  7, 0, 0, 0, 0, 0, 0, 0,  101, 0, 0, 0,  0, 0, 0, 0,
    3, 3, 0, 0,  1, 0, 0, 0,  7, 0, 0, 0, 0, 0, 0, 0,  202, 0, 0, 0,  0, 0, 0, 0,
    4, 0, 0, 0,  1, 0, 0, 0,  7, 0, 0, 0, 0, 0, 0, 0,  0, 0, 0, 0,    0, 0, 0, 0,
    7, 0, 0, 0,  1, 0, 0, 0,  7, 0, 0, 0, 0, 0, 0, 0,  0, 0, 0, 0,    0, 0, 0, 0,
];

fn document_01() -> Tape {
    Tape {
        calendar: Some(vec![0; 4_096]),
        records: BYTES.to_vec(),
    }
}

#[test]
fn its_text_gives_its_96_bytes() {
    assert_eq!(encode(TEXT), Ok(document_01()));
}

#[test]
fn its_bytes_give_its_text() {
    assert_eq!(decode(&document_01()).as_deref(), Ok(TEXT));
}

/// One record of each form with fields that fill their width, by line and by
/// bytes: kind and detail, day, reference, premise, retailer or counter.
#[rustfmt::skip]
const FORMS: [(&str, [u64; 6]); 22] = [
    ("create premise 18446744073709551615 day 65535 retailer 18446744073709551615", [1, 0, 65_535, 0, u64::MAX, u64::MAX]),
    ("create premise 1 day 3 retailer 4 window 255", [1, 255, 3, 0, 1, 4]),
    ("retire premise 258", [2, 0, 0, 0, 258, 0]),
    ("move-in premise 1 reference 2 day 3 retailer 4", [3, 1, 3, 2, 1, 4]),
    ("move-out premise 1 reference 2 day 3 retailer 4", [3, 2, 3, 2, 1, 4]),
    ("standard-switch premise 1 reference 2 retailer 4", [3, 3, 0, 2, 1, 4]),
    ("standard-switch premise 1 reference 2 retailer 4 day 3", [3, 3, 3, 2, 1, 4]),
    ("self-selected-switch premise 1 reference 2 day 3 retailer 9999999999999", [3, 4, 3, 2, 1, 9_999_999_999_999]),
    ("drop premise 1 reference 2 day 3 retailer 4", [3, 5, 3, 2, 1, 4]),
    ("scheduled premise 1 reference 2 day 4096", [4, 0, 4_096, 2, 1, 0]),
    ("permit premise 1 reference 0", [5, 0, 0, 0, 1, 0]),
    ("unexecutable premise 0 reference 2", [6, 0, 0, 2, 0, 0]),
    ("read premise 1 reference 4294967295 day 258", [7, 0, 258, 4_294_967_295, 1, 0]),
    ("cancel premise 1 reference 2 retailer 0", [8, 0, 0, 2, 1, 0]),
    ("cancel premise 1 reference 2 retailer 4294967297", [8, 0, 0, 2, 1, 4_294_967_297]),
    ("reply accept premise 1 reference 2", [9, 1, 0, 2, 1, 0]),
    ("reply reject premise 1 reference 2", [9, 2, 0, 2, 1, 0]),
    ("day 513", [10, 0, 513, 0, 0, 0]),
    ("date-change premise 1 reference 2 day 3 counter 4294967295", [11, 0, 3, 2, 1, 4_294_967_295]),
    ("establish premise 1 retailer 4", [12, 1, 0, 0, 1, 4]),
    ("establish premise 1 retailer 10000000000000", [12, 1, 0, 0, 1, 10_000_000_000_000]),
    ("delete premise 1 retailer 4294967295", [12, 2, 0, 0, 1, 4_294_967_295]),
];

fn record([kind, detail, day, reference, premise, retailer]: [u64; 6]) -> Vec<u8> {
    let mut bytes = vec![kind as u8, detail as u8];
    bytes.extend_from_slice(&(day as u16).to_le_bytes());
    bytes.extend_from_slice(&(reference as u32).to_le_bytes());
    bytes.extend_from_slice(&premise.to_le_bytes());
    bytes.extend_from_slice(&retailer.to_le_bytes());
    bytes
}

#[test]
fn each_form_stands_for_its_bytes_and_back() {
    for (line, fields) in FORMS {
        let tape = Tape {
            calendar: None,
            records: record(fields),
        };
        let text = format!("calendar absent\n{line}\n");
        assert_eq!(encode(&text), Ok(tape.clone()), "{line}");
        assert_eq!(decode(&tape), Ok(text), "{line}");
    }
}

#[test]
fn named_fields_come_in_any_order_with_comments_and_space() {
    let text = "\
# Document 01's own tape, written loosely.

  calendar 4096 days, all of kind 0   # business days only
\tcreate retailer 101 day 0 premise 7
standard-switch retailer 202 day 0 reference 1 premise 7#moves over
scheduled day 0 premise 7 reference 1\r
read reference 1 day 0 premise 007";
    assert_eq!(encode(text), Ok(document_01()));
}

#[test]
fn days_are_short_for_a_day_mark_each() {
    let long = encode("calendar absent\nday 3\nday 4\nday 5\n");
    assert_eq!(encode("calendar absent\ndays 3..5\n"), long);
}

#[test]
fn an_empty_tape_has_no_bytes() {
    let empty = Tape {
        calendar: Some(Vec::new()),
        records: Vec::new(),
    };
    assert_eq!(encode("calendar 0 days\n"), Ok(empty.clone()));
    assert_eq!(decode(&empty).as_deref(), Ok("calendar 0 days\n"));
}
