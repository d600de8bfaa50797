//! Document 02, change 7: thirteen-digit retailers.

use crate::support::*;
use stacking::book::Book;
use stacking::random::Random;
use stacking::record::{decode, Entry, Fields, RECORD_BYTES};
use stacking::sample::{self, TapeOptions};
use stacking::single_call::{call_bytes, Call};
use stacking::tape::play;

const LARGEST: u64 = 9_999_999_999_999;
const LONG: u64 = 1_000_000_000_123;

/// Pairs that agree in their low 32 bits, or in all but the suffix.
const PAIRS: [(u64, u64); 4] = [
    (1, 4_294_967_297),
    (4_294_967_297, 1),
    (LONG, LONG + 1),
    (LARGEST - (1 << 32), LARGEST),
];

/// A flat that one retailer of 13 digits loses to another.
#[test]
fn a_flat_goes_from_one_long_number_to_another() {
    let mut desk = Desk::created_with(10, LARGEST);
    played(
        &mut desk,
        &[
            (new_order_of(LARGEST + 1, 4, 12, 1), 3, &[]),
            (new_order_of(LONG, 4, 12, 1), 0, &[(1, 4, 12, 1, TDSP)]),
            (
                scheduled(1, 12),
                0,
                &[(3, 4, 12, 1, LONG), (4, 4, 12, 1, LARGEST)],
            ),
            (cancel_by(1_000_000_000, 1), 13, &[]),
            (cancel_by(LONG, 1), 0, &[(5, 4, 12, 1, TDSP)]),
            (reject(1), 0, &[(8, 4, 12, 1, LONG)]),
            (read(1, 12), 0, &[]),
        ],
    );
    assert_eq!((desk.file().retailer, desk.file().since), (LONG, 12));
    assert_eq!(desk.order(1).retailer, LONG);
}

/// The clock, the passes and what a told retailer hears.
#[test]
fn every_notice_has_the_whole_number() {
    let mut desk = Desk::created_with(10, LARGEST);
    played(
        &mut desk,
        &[
            (establish(LONG), 0, &[(11, 0, 0, 0, LONG)]),
            (
                establish(LONG + 1),
                0,
                &[(10, 0, 0, 0, LONG), (11, 0, 0, 0, LONG + 1)],
            ),
            (new_order_of(LONG, 1, 12, 1), 0, &[(1, 1, 12, 1, TDSP)]),
            (permit(1), 0, &[(6, 1, NONE, 1, LONG)]),
            (
                scheduled(1, 12),
                0,
                &[(3, 1, 12, 1, LONG), (4, 1, 12, 1, LARGEST)],
            ),
            (
                unexecutable(1),
                0,
                &[(7, 1, 12, 1, LONG), (7, 1, 12, 1, LARGEST)],
            ),
            (new_order_of(LONG, 2, 12, 2), 0, &[(2, 2, 12, 2, TDSP)]),
            (
                scheduled(2, 12),
                0,
                &[(3, 2, 12, 2, LONG), (12, 2, 12, 2, LONG + 1)],
            ),
            (read(2, 12), 0, &[]),
        ],
    );
    assert_eq!(desk.file().retailer, LONG + 1);
    played(
        &mut desk,
        &[
            (new_order_of(LONG, 1, 40, 3), 0, &[(1, 1, 40, 3, TDSP)]),
            (cancel_by(LONG, 3), 0, &[(5, 1, NONE, 3, TDSP)]),
        ],
    );
    desk.mark_to(16);
    assert_eq!(desk.notices, []);
    desk.mark_to(17);
    let cancelled = [(5, 1, NONE, 3, TDSP), (5, 1, NONE, 3, LONG)];
    assert_eq!(desk.notices, cancelled);
}

#[test]
fn row_13_compares_whole_numbers() {
    for (submitter, other) in PAIRS {
        let mut desk = Desk::new(10);
        desk.take(&[new_order_of(submitter, 1, 12, 1)]);
        assert_eq!(desk.send(cancel_by(other, 1)), 13, "{submitter} {other}");
        assert_eq!(desk.send(cancel_by(submitter, 1)), 0);
    }
}

#[test]
fn row_18_and_notice_10_compare_whole_numbers() {
    for (holder, other) in PAIRS {
        let mut desk = Desk::new(10);
        played(
            &mut desk,
            &[
                (establish(holder), 0, &[(11, 0, 0, 0, holder)]),
                (delete(other), 18, &[]),
                (
                    establish(other),
                    0,
                    &[(10, 0, 0, 0, holder), (11, 0, 0, 0, other)],
                ),
                (establish(other), 0, &[(11, 0, 0, 0, other)]),
                (delete(holder), 18, &[]),
                (delete(other), 0, &[(11, 0, 0, 0, other)]),
            ],
        );
    }
}

#[test]
fn row_26_counts_whole_numbers() {
    for (one, other) in PAIRS {
        let mut desk = Desk::new(10);
        for reference in 1..=4 {
            desk.take(&[new_order_of(one, 2, 40, reference)]);
        }
        assert_eq!(desk.send(new_order_of(one, 2, 40, 9)), 26);
        for reference in 5..=8 {
            desk.take(&[new_order_of(other, 2, 40, reference)]);
        }
        assert_eq!(desk.send(new_order_of(other, 2, 40, 9)), 26);
    }
}

/// R hears of an order of another retailer, and nothing of its own.
#[test]
fn pass_4_compares_whole_numbers() {
    for (holder, submitter) in PAIRS {
        let mut desk = Desk::created_with(10, holder);
        desk.take(&[new_order_of(submitter, 1, 12, 1), scheduled(1, 12)]);
        let expected = [(3, 1, 12, 1, submitter), (4, 1, 12, 1, holder)];
        assert_eq!(desk.notices, expected);
        let mut desk = Desk::created_with(10, holder);
        desk.take(&[new_order_of(holder, 1, 12, 1), scheduled(1, 12)]);
        assert_eq!(desk.notices, [(3, 1, 12, 1, holder)]);
        assert_eq!(desk.order(1).told, 1);
    }
}

/// 4,294,967,296 has only zeros in its low 32 bits, and is a retailer.
#[test]
fn a_number_that_ends_in_zeros_is_a_retailer() {
    let like_none = 1 << 32;
    let mut desk = Desk::created_with(10, like_none);
    desk.take(&[new_order(1, 12, 1), scheduled(1, 12)]);
    assert_eq!(desk.notices[1..], [(4, 1, 12, 1, like_none)]);
    desk.take(&[establish(like_none), establish(LONG)]);
    assert_eq!(desk.notices[0], (10, 0, 0, 0, like_none));
    desk.take(&[establish(like_none), new_order(2, 12, 2), scheduled(2, 12)]);
    assert_eq!(desk.notices[1..], [(12, 2, 12, 2, like_none)]);
    desk.take(&[read(2, 12)]);
    assert_eq!(desk.file().retailer, like_none);
}

/// The bytes of an own record of the desk's premise with this number in 16 to 23.
fn with_number(entry: Entry, number: u64) -> [u8; RECORD_BYTES] {
    let mut record = of_premise(PREMISE, entry);
    record[16..].copy_from_slice(&number.to_le_bytes());
    record
}

#[test]
fn a_counter_has_four_bytes() {
    let mut desk = Desk::new(10);
    desk.take(&[new_order(1, 40, 1)]);
    let change = date_change(1, 30, 1);
    for number in [0, 1 << 32, (1 << 32) + 1, 1 << 56, u64::MAX] {
        assert_eq!(desk.send_bytes(&with_number(change, number)), 3);
    }
    let largest = u64::from(u32::MAX);
    assert_eq!(desk.send_bytes(&with_number(change, largest)), 0);
    assert_eq!(desk.order(1).counter, u32::MAX);
}

/// Where a kind does not use the field its eight bytes are zero.
#[test]
fn an_unused_field_is_unused_in_all_its_bytes() {
    let mut desk = Desk::new(10);
    desk.take(&[new_order(1, 40, 1)]);
    let before = desk.book.clone();
    for entry in [
        Entry::Retire,
        scheduled(1, 12),
        permit(1),
        unexecutable(1),
        read(1, 12),
        accept(1),
        reject(1),
    ] {
        for byte in 0..8 {
            let record = with_number(entry, 1 << (8 * byte));
            assert_eq!(desk.send_bytes(&record), 3, "{entry:?} {byte}");
        }
    }
    let mut next = mark(11);
    next[20] = 1;
    assert_eq!(desk.send_bytes(&next), 3);
    assert_eq!(desk.book, before);
}

#[test]
fn the_field_is_eight_bytes_low_byte_first() {
    let order = new_order_of(0x0807_0605_0403, 1, 12, 1);
    let record = of_premise(PREMISE, order);
    assert_eq!(record[16..], [3, 4, 5, 6, 7, 8, 0, 0]);
    assert_eq!(Fields::from_bytes(&record).retailer, 0x0807_0605_0403);
    let again = decode(&record).map(|read| read.to_bytes());
    assert_eq!(again, Some(record));
}

#[test]
fn the_tape_program_prints_whole_numbers() {
    let tape = [
        create(0, LARGEST),
        new_order_of(LONG, 4, 1, 1),
        scheduled(1, 1),
    ]
    .map(|entry| of_premise(PREMISE, entry))
    .concat();
    let mut out = Vec::new();
    play(&business_days(), &tape, &mut out).unwrap();
    let expected = "1 0 0\n2 0 1\nn 1 4 1 1 7 0\n3 0 2\n\
                    n 3 4 1 1 7 1000000000123\nn 4 4 1 1 7 9999999999999\n\
                    p 7 9999999999999 0\nt 3 0\n";
    assert_eq!(String::from_utf8(out).unwrap(), expected);
}

/// As the top of `callcheck.rs` has it.
#[test]
fn a_book_has_14_667_bytes() {
    let call = Call {
        book: Book::fresh(0),
        calendar: Vec::new(),
        record: Vec::new(),
        buffer_length: 0,
    };
    assert_eq!(call_bytes(&call).len(), 14_667 + 3 * 4);
    let files = 64 * (8 + 8 + 2 + 1 + 1 + 8 + 1 + 8 * 25);
    assert_eq!(2 + 1 + 4 * 2 + files, 14_667);
}

/// Retailers are compared and kept, and nothing else is done with their numbers: a
/// tape with other ones in their place gives the same lines with these in them.
#[test]
fn other_numbers_change_nothing_else() {
    let other = |retailer: u64| match retailer {
        0 => 0,
        _ => LARGEST + 1 - retailer,
    };
    for seed in 0..12 {
        let mut random = Random::new(seed);
        let days = sample::calendar(&mut random);
        let options = TapeOptions {
            records: 300,
            premises: Some(3),
            never_full: false,
        };
        let tape = sample::tape(&mut random, &days, &options);
        let records = tape.chunks(RECORD_BYTES);
        let renamed: Vec<u8> = records.flat_map(|record| renamed(record, other)).collect();
        let lines = |tape: &[u8]| {
            let mut out = Vec::new();
            play(&days, tape, &mut out).unwrap();
            String::from_utf8(out).unwrap()
        };
        let before = lines(&tape);
        let expected = before.lines().map(|line| renamed_line(line, other) + "\n");
        assert_eq!(lines(&renamed), expected.collect::<String>(), "{seed}");
    }
}

/// A well-formed record that names a retailer, with another one in its place.
fn renamed(record: &[u8], rename: impl Fn(u64) -> u64) -> Vec<u8> {
    let mut bytes = record.to_vec();
    if decode(record).is_some() && matches!(record[0], 1 | 3 | 8 | 12) {
        let retailer = Fields::from_bytes(record.try_into().unwrap()).retailer;
        bytes[16..].copy_from_slice(&rename(retailer).to_le_bytes());
    }
    bytes
}

/// The last number of a notice's line, and the second of a file's, are retailers.
fn renamed_line(line: &str, rename: impl Fn(u64) -> u64) -> String {
    let mut words: Vec<String> = line.split(' ').map(String::from).collect();
    let place = match words[0].as_str() {
        "n" => 6,
        "p" => 2,
        _ => return line.to_string(),
    };
    words[place] = rename(words[place].parse().unwrap()).to_string();
    words.join(" ")
}
