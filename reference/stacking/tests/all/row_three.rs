//! Row 3, by the bytes alone: every field of every kind of record, every length.

use crate::support::*;
use stacking::record::{decode, Fields, RECORD_BYTES};

const LARGEST: u64 = 9_999_999_999_999;
const LARGEST_COUNTER: u64 = 4_294_967_295;

/// Which fields a kind of record uses.
struct Use {
    kind: u8,
    details: &'static [u8],
    fields: &'static str,
}

/// In the order of the paper's list, with its fields in brackets.
const USED: [Use; 12] = [
    uses(1, &[0, 1, 2, 3, 4, 5], "day premise retailer"),
    uses(2, &[0], "premise"),
    uses(3, &[1, 2, 3, 4, 5], "day reference premise retailer"),
    uses(4, &[0], "day reference premise"),
    uses(5, &[0], "reference premise"),
    uses(6, &[0], "reference premise"),
    uses(7, &[0], "day reference premise"),
    uses(8, &[0], "reference premise retailer"),
    uses(9, &[1, 2], "reference premise"),
    uses(10, &[0], "day"),
    uses(11, &[0], "day reference premise counter"),
    uses(12, &[1, 2], "premise retailer"),
];

const fn uses(kind: u8, details: &'static [u8], fields: &'static str) -> Use {
    Use {
        kind,
        details,
        fields,
    }
}

/// Does the record's kind use a field? A standard switch gives no day.
fn is_used(field: &str, fields: &Fields) -> bool {
    let standard_switch = fields.kind == 3 && fields.detail == 3;
    USED[usize::from(fields.kind) - 1].fields.contains(field)
        && !(field == "day" && standard_switch)
}

fn well_formed(fields: Fields) -> bool {
    decode(&fields.to_bytes()).is_some()
}

/// A well-formed record of each kind, with each detail it takes.
fn samples() -> Vec<Fields> {
    let mut samples = Vec::new();
    for used in USED {
        for &detail in used.details {
            let mut fields = Fields {
                kind: used.kind,
                detail,
                ..Fields::default()
            };
            fields.day = if is_used("day", &fields) { 9 } else { 0 };
            fields.reference = u32::from(is_used("reference", &fields));
            fields.premise = PREMISE * u64::from(is_used("premise", &fields));
            fields.retailer =
                u64::from(is_used("retailer", &fields) || is_used("counter", &fields));
            samples.push(fields);
        }
    }
    samples
}

#[test]
fn the_samples_are_well_formed() {
    for fields in samples() {
        assert!(well_formed(fields), "{fields:?}");
        let record = decode(&fields.to_bytes()).unwrap();
        assert_eq!(record.to_bytes(), fields.to_bytes());
    }
}

#[test]
fn kinds_other_than_1_to_12() {
    for kind in (0..=0).chain(13..=255) {
        for fields in samples() {
            assert!(!well_formed(Fields { kind, ..fields }));
        }
    }
}

#[test]
fn details() {
    for mut fields in samples() {
        let details = USED[usize::from(fields.kind) - 1].details;
        if fields.kind == 3 {
            fields.day = 0;
        }
        for detail in 0..=255 {
            let taken = details.contains(&detail);
            assert_eq!(well_formed(Fields { detail, ..fields }), taken);
        }
    }
}

#[test]
fn days() {
    for fields in samples() {
        let last = if is_used("day", &fields) { 4_095 } else { 0 };
        for day in 0..=u16::MAX {
            let taken = day <= last;
            assert_eq!(well_formed(Fields { day, ..fields }), taken);
        }
    }
}

#[test]
fn references_and_premises() {
    for fields in samples() {
        for reference in [0, 1, 256, u32::MAX] {
            let taken = (reference != 0) == is_used("reference", &fields);
            assert_eq!(
                well_formed(Fields {
                    reference,
                    ..fields
                }),
                taken
            );
        }
        for premise in [0, 1, 1 << 32, u64::MAX] {
            let taken = (premise != 0) == is_used("premise", &fields);
            assert_eq!(well_formed(Fields { premise, ..fields }), taken);
        }
    }
}

/// The largest number that a record's kind takes in bytes 16 to 23: a retailer, a
/// counter in the first four of them, or nothing.
fn largest(fields: &Fields) -> u64 {
    match (is_used("retailer", fields), is_used("counter", fields)) {
        (true, _) => LARGEST,
        (_, true) => LARGEST_COUNTER,
        _ => 0,
    }
}

/// A create takes retailer 0 too.
#[test]
fn retailers_and_counters() {
    let numbers = [
        0,
        1,
        999_999_999,
        1_000_000_000,
        LARGEST_COUNTER,
        LARGEST_COUNTER + 1,
        LARGEST,
        LARGEST + 1,
        u64::MAX,
    ];
    for fields in samples() {
        let largest = largest(&fields);
        for retailer in numbers {
            let taken = match retailer {
                0 => fields.kind == 1 || largest == 0,
                _ => retailer <= largest,
            };
            assert_eq!(well_formed(Fields { retailer, ..fields }), taken);
        }
    }
}

/// A bit of the last four bytes is part of a retailer and of nothing else.
#[test]
fn the_last_four_bytes_are_the_retailers() {
    for fields in samples() {
        for bit in 32..64 {
            let retailer = fields.retailer | 1 << bit;
            let taken = retailer <= largest(&fields);
            assert_eq!(taken, is_used("retailer", &fields) && bit <= 43);
            assert_eq!(well_formed(Fields { retailer, ..fields }), taken);
        }
    }
}

#[test]
fn lengths_0_to_40() {
    for fields in samples() {
        let mut bytes = fields.to_bytes().to_vec();
        bytes.resize(40, 0);
        for length in 0..=40 {
            assert_eq!(decode(&bytes[..length]).is_some(), length == RECORD_BYTES);
            let mut desk = Desk::new(8);
            let answer = desk.send_bytes(&bytes[..length]);
            assert_eq!(answer == 3, length != RECORD_BYTES);
        }
    }
}

#[test]
fn low_byte_first() {
    let bytes: [u8; RECORD_BYTES] = std::array::from_fn(|place| place as u8);
    let fields = Fields::from_bytes(&bytes);
    assert_eq!((fields.kind, fields.detail, fields.day), (0, 1, 0x0302));
    assert_eq!(
        (fields.reference, fields.premise),
        (0x0706_0504, 0x0F0E_0D0C_0B0A_0908)
    );
    assert_eq!(fields.retailer, 0x1716_1514_1312_1110);
    assert_eq!(fields.to_bytes(), bytes);
}
