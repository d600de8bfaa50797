//! Comparing by maps: each tape is gone through once and sorted out.

use crate::Agreement;
use stacking::record::{decode, Record, RECORD_BYTES};
use std::collections::{BTreeMap, BTreeSet};

/// A tape, sorted out.
#[derive(Default)]
struct Sorted<'a> {
    marks: Vec<&'a [u8]>,
    /// The records of each premise, each with how many marks stand before it.
    premises: BTreeMap<u64, Vec<(usize, &'a [u8])>>,
}

impl<'a> Sorted<'a> {
    fn of(tape: &'a [u8]) -> Sorted<'a> {
        let mut sorted = Sorted::default();
        for bytes in tape.chunks(RECORD_BYTES) {
            match decode(bytes) {
                None => {}
                Some(Record::DayMark { .. }) => sorted.marks.push(bytes),
                Some(Record::OfPremise { premise, .. }) => {
                    let marks = sorted.marks.len();
                    sorted
                        .premises
                        .entry(premise)
                        .or_default()
                        .push((marks, bytes));
                }
            }
        }
        sorted
    }
}

/// Compares two tapes. With the same marks, a premise's records and the marks
/// stand in the same order exactly if its records are the same, and each has as
/// many marks before it.
pub fn compare(ours: &[u8], theirs: &[u8]) -> Agreement {
    let (ours, theirs) = (Sorted::of(ours), Sorted::of(theirs));
    if ours.marks != theirs.marks {
        return Agreement::MarksDiffer;
    }
    let named: BTreeSet<u64> = ours
        .premises
        .keys()
        .chain(theirs.premises.keys())
        .copied()
        .collect();
    named
        .into_iter()
        .find(|premise| ours.premises.get(premise) != theirs.premises.get(premise))
        .map_or(Agreement::Same, Agreement::Differ)
}
