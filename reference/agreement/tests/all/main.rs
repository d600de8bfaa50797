//! The tests of the second program's comparer, from document 02, change 10.

use agreement::pair::{pair, Change};
use agreement::{by_the_sentence, compare, Agreement};

/// A create of a premise for a retailer.
fn create(premise: u64, retailer: u64) -> [u8; 24] {
    let mut bytes = [0; 24];
    bytes[0] = 1;
    bytes[8..16].copy_from_slice(&premise.to_le_bytes());
    bytes[16..24].copy_from_slice(&retailer.to_le_bytes());
    bytes
}

fn mark(day: u8) -> [u8; 24] {
    let mut bytes = [0; 24];
    bytes[0] = 10;
    bytes[2] = day;
    bytes
}

/// Both ways of comparing say it, whichever tape is ours.
fn expect(answer: Agreement, ours: &[[u8; 24]], theirs: &[[u8; 24]]) {
    let (ours, theirs) = (ours.concat(), theirs.concat());
    assert_eq!(compare(&ours, &theirs), answer);
    assert_eq!(compare(&theirs, &ours), answer);
    assert_eq!(by_the_sentence(&ours, &theirs), answer);
    assert_eq!(by_the_sentence(&theirs, &ours), answer);
}

#[test]
fn order_between_premises_does_not_count() {
    let (a, b) = (create(7, 1), create(5, 2));
    expect(Agreement::Same, &[a, b, mark(1)], &[b, a, mark(1)]);
    expect(Agreement::Same, &[], &[]);
}

#[test]
fn order_within_a_premise_and_around_marks_does() {
    let (a, b) = (create(5, 1), create(5, 2));
    expect(Agreement::Differ(5), &[a, b], &[b, a]);
    expect(Agreement::Differ(5), &[a, mark(1)], &[mark(1), a]);
    expect(Agreement::Differ(5), &[a], &[a, a]);
}

#[test]
fn marks_by_themselves_come_first() {
    let a = create(5, 1);
    expect(Agreement::MarksDiffer, &[mark(1)], &[mark(2)]);
    expect(Agreement::MarksDiffer, &[mark(1), mark(1)], &[mark(1)]);
    expect(Agreement::MarksDiffer, &[mark(1), a], &[a]);
}

#[test]
fn the_smallest_premise_is_given() {
    let (one, five, last) = (create(1, 9), create(5, 9), create(u64::MAX, 9));
    expect(Agreement::Differ(1), &[last, five, one], &[]);
    expect(Agreement::Differ(5), &[last, five], &[]);
    expect(Agreement::Differ(u64::MAX), &[last, five], &[five]);
}

#[test]
fn retailers_that_differ_beyond_32_bits_differ() {
    let (short, long) = (create(5, 1), create(5, 4_294_967_297));
    expect(Agreement::Differ(5), &[short], &[long]);
    let (largest, too_large) = (create(5, 9_999_999_999_999), create(5, 10_000_000_000_000));
    expect(Agreement::Differ(5), &[largest], &[]);
    expect(Agreement::Same, &[too_large], &[]);
}

#[test]
fn what_is_answered_3_is_passed_over() {
    let mut bad = create(5, 1);
    bad[23] = 1;
    expect(Agreement::Same, &[bad, create(5, 1)], &[create(5, 1)]);
    let mut bad_mark = mark(1);
    bad_mark[8] = 1;
    expect(Agreement::Same, &[bad_mark], &[]);
    assert_eq!(compare(&create(5, 1)[..23], &[]), Agreement::Same);
}

#[test]
fn both_ways_say_the_same_of_random_pairs() {
    let mut yes = 0;
    for seed in 0..600 {
        let made = pair(seed, 120);
        let answer = compare(&made.ours, &made.theirs);
        assert_eq!(
            answer,
            by_the_sentence(&made.ours, &made.theirs),
            "seed {seed}"
        );
        yes += usize::from(answer == Agreement::Same);
        match made.change {
            Change::Nothing | Change::Malformed | Change::ShortLast => {
                assert_eq!(answer, Agreement::Same, "seed {seed}")
            }
            Change::FirstOrLast => assert!(
                matches!(answer, Agreement::Differ(1 | u64::MAX)),
                "seed {seed}"
            ),
            _ => {}
        }
    }
    assert!(yes >= 150, "{yes} of 600 pairs agree");
}
