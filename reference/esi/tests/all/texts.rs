//! A directory as text, and back.

use crate::rules::{LONG, SHORT};
use esi::sample::entries;
use esi::text::{decode, encode};
use stacking::random::Random;

#[test]
fn a_line_is_a_record() {
    let text = "# two flats\n10443720091234567 7\n\n  1044372009123456789012 8  \n";
    assert_eq!(encode(text), Ok([SHORT, LONG].concat()));
    assert_eq!(
        decode(&[SHORT, LONG].concat()).as_deref(),
        Ok("10443720091234567 7\n1044372009123456789012 8\n")
    );
    assert_eq!(encode(""), Ok(Vec::new()));
    assert_eq!(decode(&[]).as_deref(), Ok(""));
}

#[test]
fn text_and_directory_are_each_others_inverse() {
    for seed in 0..20 {
        let entries = entries(&mut Random::new(seed), 50);
        let directory: Vec<u8> = entries.iter().flat_map(|entry| entry.bytes()).collect();
        let text = decode(&directory).unwrap();
        assert_eq!(text.lines().count(), 50);
        assert_eq!(encode(&text), Ok(directory));
    }
}

#[test]
fn a_bad_line_is_named() {
    for (text, wrong) in [
        ("10443720091234567", "line 1: not two words"),
        ("10443720091234567 7 8", "line 1: not two words"),
        (
            "\n1044372009123456 7",
            "line 2: \"1044372009123456\" is no ESI ID",
        ),
        (
            "1044372009123456: 7",
            "line 1: \"1044372009123456:\" is no ESI ID",
        ),
        ("10443720091234567 x", "line 1: \"x\" is no premise number"),
        (
            "10443720091234567 18446744073709551616",
            "is no premise number",
        ),
        ("10443720091234567 0", "line 1: its premise number is 0"),
        (
            "10443720091234567 7\n#\n10443720091234567 8",
            "line 3: its ESI ID stands in an earlier one",
        ),
        (
            "10443720091234567 7\n10443720091234568 7",
            "line 2: its premise number stands in an earlier one",
        ),
    ] {
        let said = encode(text).unwrap_err();
        assert!(said.contains(wrong), "{said:?} does not say {wrong:?}");
    }
}

#[test]
fn a_bad_record_is_named() {
    let mut bad = LONG;
    bad[23] = 1;
    let said = decode(&[SHORT, bad].concat()).unwrap_err();
    assert_eq!(said, "record 2: one of its last four bytes is not 0");
    assert_eq!(
        decode(&SHORT[..23]).unwrap_err(),
        "record 1: it is cut short; expected 24 bytes"
    );
}

#[test]
fn more_records_than_the_program_takes_are_refused() {
    let line = |k: usize| format!("{k:017} {k}\n");
    let text: String = (1..=2_731).map(line).collect();
    assert_eq!(
        encode(&text).unwrap_err(),
        "2731 records; expected at most 2730"
    );
    let text: String = (1..=2_730).map(line).collect();
    assert_eq!(encode(&text).unwrap().len(), 65_520);
}
