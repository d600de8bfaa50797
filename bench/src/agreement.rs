//! Comparing two tapes by the search that the proved comparer makes: nothing is
//! stored or sorted; the tapes are walked for the day marks, and then for each
//! premise in rising order.

use agreement::Agreement;
use stacking::record::{decode, RECORD_BYTES};

const DAY_MARK: u8 = 10;

/// No record but a mark has it, so that what concerns it are the marks alone.
const NO_PREMISE: u64 = 0;

fn premise_of(bytes: &[u8]) -> u64 {
    u64::from_le_bytes(bytes[8..16].try_into().expect("eight bytes"))
}

/// Two fields are looked at before a record is read whole.
fn concerns(premise: u64, bytes: &[u8]) -> bool {
    (bytes[0] == DAY_MARK || premise_of(bytes) == premise) && decode(bytes).is_some()
}

fn own(tape: &[u8], premise: u64) -> impl Iterator<Item = &[u8]> {
    tape.chunks_exact(RECORD_BYTES)
        .filter(move |bytes| concerns(premise, bytes))
}

fn same_own(ours: &[u8], theirs: &[u8], premise: u64) -> bool {
    own(ours, premise).eq(own(theirs, premise))
}

/// The smallest premise above the last one that a tape names below a limit; the
/// limit where it names none.
fn next_below(tape: &[u8], last: u64, limit: u64) -> u64 {
    let mut nearest = limit;
    for bytes in tape.chunks_exact(RECORD_BYTES) {
        let premise = premise_of(bytes);
        if last < premise && premise < nearest && bytes[0] != DAY_MARK && decode(bytes).is_some() {
            nearest = premise;
        }
    }
    nearest
}

/// What comparing two tapes says.
pub fn compare(ours: &[u8], theirs: &[u8]) -> Agreement {
    if !same_own(ours, theirs, NO_PREMISE) {
        return Agreement::MarksDiffer;
    }
    let mut last = 0;
    while last < u64::MAX {
        last = next_below(theirs, last, next_below(ours, last, u64::MAX));
        if !same_own(ours, theirs, last) {
            return Agreement::Differ(last);
        }
    }
    Agreement::Same
}
