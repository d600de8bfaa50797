//! Comparing by document 02's sentence, word by word, and slowly.

use crate::Agreement;
use stacking::record::{decode, Record, RECORD_BYTES};

/// "the well-formed records naming it together with the day marks", in tape
/// order; for no premise "the day marks by themselves".
fn concerning(tape: &[u8], named: Option<u64>) -> Vec<&[u8]> {
    tape.chunks(RECORD_BYTES)
        .filter(|bytes| match decode(bytes) {
            None => false,
            Some(Record::DayMark { .. }) => true,
            Some(Record::OfPremise { premise, .. }) => Some(premise) == named,
        })
        .collect()
}

/// Every number that stands where a premise stands: a premise that is named
/// nowhere has the day marks alone on both tapes.
fn numbers(tape: &[u8]) -> impl Iterator<Item = u64> + '_ {
    tape.chunks_exact(RECORD_BYTES)
        .map(|bytes| u64::from_le_bytes(bytes[8..16].try_into().expect("eight bytes")))
}

/// "The tool says yes exactly when, for each premise, [they] stand in the same
/// order and with the same bytes on both tapes, the day marks by themselves
/// included [...] With a no it also gives 0 if the day marks alone differ,
/// otherwise the smallest P at which they differ".
pub fn by_the_sentence(ours: &[u8], theirs: &[u8]) -> Agreement {
    let differ = |named| concerning(ours, named) != concerning(theirs, named);
    if differ(None) {
        return Agreement::MarksDiffer;
    }
    numbers(ours)
        .chain(numbers(theirs))
        .chain([1, u64::MAX])
        .filter(|&premise| premise != 0 && differ(Some(premise)))
        .min()
        .map_or(Agreement::Same, Agreement::Differ)
}
