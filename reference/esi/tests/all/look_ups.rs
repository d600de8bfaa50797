//! Looking up: what is found, and rows 21 and 22.

use crate::rules::{LONG, LONG_TEXT, SHORT, SHORT_TEXT};
use esi::directory::look_up;

#[test]
fn each_record_is_found_by_its_digits() {
    for directory in [[SHORT, LONG].concat(), [LONG, SHORT].concat()] {
        assert_eq!(look_up(&directory, SHORT_TEXT), (0, 7));
        assert_eq!(look_up(&directory, LONG_TEXT), (0, 8));
    }
}

#[test]
fn a_premise_has_eight_bytes_low_byte_first() {
    let mut record = SHORT;
    record[12..20].copy_from_slice(&[1, 2, 3, 4, 5, 6, 7, 8]);
    assert_eq!(look_up(&record, SHORT_TEXT), (0, 0x0807_0605_0403_0201));
}

#[test]
fn a_beginning_is_another_id() {
    assert_eq!(look_up(&LONG, SHORT_TEXT), (22, 0));
    assert_eq!(look_up(&SHORT, LONG_TEXT), (22, 0));
    assert_eq!(look_up(&[], SHORT_TEXT), (22, 0));
}

#[test]
fn texts_are_17_or_22_ascii_digits() {
    let directory = [SHORT, LONG].concat();
    for length in (0..=40).filter(|length| ![17, 22].contains(length)) {
        assert_eq!(look_up(&directory, &vec![b'1'; length]), (21, 0));
    }
    for text in [SHORT_TEXT, LONG_TEXT] {
        for place in 0..text.len() {
            for byte in (0..=255).filter(|byte: &u8| !byte.is_ascii_digit()) {
                let mut other = text.to_vec();
                other[place] = byte;
                assert_eq!(look_up(&directory, &other), (21, 0));
            }
        }
    }
}

#[test]
fn every_digit_counts() {
    let directory = [SHORT, LONG].concat();
    for text in [SHORT_TEXT, LONG_TEXT] {
        for place in 0..text.len() {
            for byte in (b'0'..=b'9').filter(|byte| *byte != text[place]) {
                let mut other = text.to_vec();
                other[place] = byte;
                assert_eq!(look_up(&directory, &other), (22, 0));
            }
        }
    }
}
