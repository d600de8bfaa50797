//! The rules of a directory, each broken in bytes that are written out as
//! document 02 lays them out.

use esi::directory::{look_up, Broken, Directory};
use esi::entry::Rule;

/// 10443720091234567 with premise 7, and the 22 digits that begin with them
/// and end in 89012 with premise 8.
pub const SHORT: [u8; 24] = [
    0x10, 0x44, 0x37, 0x20, 0x09, 0x12, 0x34, 0x56, 0x7F, 0xFF, 0xFF, 17, 7, 0, 0, 0, 0, 0, 0, 0,
    0, 0, 0, 0,
];
pub const LONG: [u8; 24] = [
    0x10, 0x44, 0x37, 0x20, 0x09, 0x12, 0x34, 0x56, 0x78, 0x90, 0x12, 22, 8, 0, 0, 0, 0, 0, 0, 0,
    0, 0, 0, 0,
];
pub const SHORT_TEXT: &[u8] = b"10443720091234567";
pub const LONG_TEXT: &[u8] = b"1044372009123456789012";

/// A record with one byte another.
fn with(record: [u8; 24], place: usize, byte: u8) -> [u8; 24] {
    let mut other = record;
    other[place] = byte;
    other
}

/// The two records, the first in the place of the one that is tried and the
/// other behind it, then the other way round: a rule holds at every record.
fn expect_broken(bad: [u8; 24], good: [u8; 24], rule: Rule) {
    for (record, directory) in [(0, [bad, good].concat()), (1, [good, bad].concat())] {
        assert_eq!(Directory::read(&directory), Err(Broken { rule, record }));
        for text in [SHORT_TEXT, LONG_TEXT, b"bad"] {
            assert_eq!(look_up(&directory, text), (20, 0));
        }
    }
}

#[test]
fn two_records_are_sound() {
    assert_eq!(
        Directory::read(&[SHORT, LONG].concat())
            .unwrap()
            .entries()
            .len(),
        2
    );
    assert_eq!(Directory::read(&[]).unwrap().entries().len(), 0);
}

#[test]
fn counts_are_17_or_22() {
    for count in (0..=255).filter(|count| ![17, 22].contains(count)) {
        expect_broken(with(LONG, 11, count), SHORT, Rule::Count);
    }
}

#[test]
fn used_halves_are_digits() {
    for place in 0..22 {
        for half in 10..=15 {
            let byte = LONG[place / 2];
            let other = if place % 2 == 0 {
                (half << 4) | (byte & 15)
            } else {
                (byte & 0xF0) | half
            };
            expect_broken(with(LONG, place / 2, other), SHORT, Rule::UsedHalf);
        }
    }
}

#[test]
fn unused_halves_are_15() {
    for half in 0..15 {
        expect_broken(with(SHORT, 8, 0x70 | half), LONG, Rule::UnusedHalf);
        for place in [9, 10] {
            expect_broken(with(SHORT, place, 0xF0 | half), LONG, Rule::UnusedHalf);
            expect_broken(with(SHORT, place, (half << 4) | 15), LONG, Rule::UnusedHalf);
        }
    }
}

#[test]
fn a_premise_is_given() {
    expect_broken(with(LONG, 12, 0), SHORT, Rule::PremiseGiven);
}

#[test]
fn the_last_bytes_are_zero() {
    for place in 20..24 {
        for byte in [1, 128, 255] {
            expect_broken(with(LONG, place, byte), SHORT, Rule::LastBytes);
        }
    }
}

#[test]
fn nothing_stands_twice() {
    let between = with(with(LONG, 10, 0x13), 12, 9);
    for (double, rule) in [
        (with(SHORT, 12, 6), Rule::IdOnce),
        (with(LONG, 12, 7), Rule::PremiseOnce),
    ] {
        for directory in [[SHORT, double].concat(), [SHORT, between, double].concat()] {
            let record = directory.len() / 24 - 1;
            assert_eq!(Directory::read(&directory), Err(Broken { rule, record }));
        }
    }
}

#[test]
fn a_length_is_a_multiple_of_24() {
    let directory = [SHORT, LONG].concat();
    for length in (0..48).filter(|length| length % 24 != 0) {
        let broken = Broken {
            rule: Rule::Length,
            record: length / 24,
        };
        assert_eq!(Directory::read(&directory[..length]), Err(broken));
        assert_eq!(look_up(&directory[..length], SHORT_TEXT), (20, 0));
    }
}
