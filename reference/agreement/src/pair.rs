//! Random pairs of tapes: a tape and its shuffle by premises, with one thing
//! changed or nothing. Everything is made from a seed and nothing else.

use stacking::random::Random;
use stacking::record::{decode, Record, RECORD_BYTES};
use stacking::sample::{calendar, shuffle, tape, TapeOptions};

/// What is done to the shuffle.
#[derive(Clone, Copy, Debug, PartialEq, Eq)]
pub enum Change {
    Nothing,
    /// Malformed records are put in, on both tapes.
    Malformed,
    /// A short record is put behind the last.
    ShortLast,
    /// A record of a premise goes to the other side of a day mark.
    AcrossMark,
    ByteChanged,
    Dropped,
    Doubled,
    /// Two records in a row of one premise change places.
    Swapped,
    MarkDropped,
    MarkAdded,
    /// A create of premise 1, or of the largest, stands on one tape alone.
    FirstOrLast,
    /// Another tape altogether.
    Another,
}

/// The changes, one to a seed.
pub const CHANGES: [Change; 12] = [
    Change::Nothing,
    Change::Malformed,
    Change::ShortLast,
    Change::AcrossMark,
    Change::ByteChanged,
    Change::Dropped,
    Change::Doubled,
    Change::Swapped,
    Change::MarkDropped,
    Change::MarkAdded,
    Change::FirstOrLast,
    Change::Another,
];

/// Two tapes and the calendar to play them with.
pub struct Pair {
    pub change: Change,
    pub calendar: Vec<u8>,
    pub ours: Vec<u8>,
    pub theirs: Vec<u8>,
}

/// The pair of a seed.
pub fn pair(seed: u64, records: usize) -> Pair {
    let mut random = Random::new(seed);
    let change = CHANGES[(seed % CHANGES.len() as u64) as usize];
    let calendar = calendar(&mut random);
    let options = TapeOptions {
        records: random.below(records + 1),
        premises: None,
        // where a create finds the book full, the tapes may lead to other books
        never_full: random.chance(3, 4),
    };
    let mut ours = tape(&mut random, &calendar, &options);
    let mut theirs = shuffle(&mut random, &calendar, &ours);
    match change {
        Change::Another => theirs = tape(&mut random, &calendar, &options),
        Change::Malformed => {
            ours = with_malformed(&mut random, &ours);
            theirs = with_malformed(&mut random, &theirs);
        }
        Change::FirstOrLast => match random.chance(1, 2) {
            true => ours = with_create(&mut random, &ours),
            false => theirs = with_create(&mut random, &theirs),
        },
        _ => theirs = changed(&mut random, change, theirs),
    }
    Pair {
        change,
        calendar,
        ours,
        theirs,
    }
}

fn split(tape: &[u8]) -> Vec<Vec<u8>> {
    tape.chunks(RECORD_BYTES).map(<[u8]>::to_vec).collect()
}

/// The whole records that pass, by their places.
fn places(records: &[Vec<u8>], passes: impl Fn(&[u8]) -> bool) -> Vec<usize> {
    (0..records.len())
        .filter(|&place| records[place].len() == RECORD_BYTES && passes(&records[place]))
        .collect()
}

fn is_mark(bytes: &[u8]) -> bool {
    matches!(decode(bytes), Some(Record::DayMark { .. }))
}

fn premise_of(bytes: &[u8]) -> Option<u64> {
    match decode(bytes)? {
        Record::OfPremise { premise, .. } => Some(premise),
        Record::DayMark { .. } => None,
    }
}

/// The tape with a change; as it is where there is no place for it.
fn changed(random: &mut Random, change: Change, tape: Vec<u8>) -> Vec<u8> {
    let mut records = split(&tape);
    let own = places(&records, |bytes| premise_of(bytes).is_some());
    let marks = places(&records, is_mark);
    match change {
        Change::ShortLast => {
            let left = tape.len() % RECORD_BYTES;
            let more = random.below(RECORD_BYTES - left);
            records.push((0..more).map(|_| random.bits() as u8).collect());
        }
        Change::AcrossMark if !marks.is_empty() && !own.is_empty() => {
            let record = records[random.pick(&own)].clone();
            let mark = random.pick(&marks);
            let at = records.iter().position(|other| *other == record);
            records.remove(at.expect("it stands there"));
            records.insert((mark + random.below(2)).min(records.len()), record);
        }
        Change::ByteChanged if !own.is_empty() => {
            let place = random.pick(&own);
            let byte = random.pick(&[1, 2, 4, 5, 8, 15, 16, 17, 19, 20, 23]);
            records[place][byte] ^= 1 << random.below(8);
        }
        Change::Dropped if !own.is_empty() => {
            records.remove(random.pick(&own));
        }
        Change::Doubled if !own.is_empty() => {
            let place = random.pick(&own);
            records.insert(place, records[place].clone());
        }
        Change::Swapped => swap_two(random, &mut records, &own),
        Change::MarkDropped if !marks.is_empty() => {
            records.remove(random.pick(&marks));
        }
        Change::MarkAdded => {
            let day = random.below(4096) as u16;
            let place = random.below(records.len().max(1));
            records.insert(place, Record::DayMark { day }.to_bytes().to_vec());
        }
        _ => {}
    }
    records.concat()
}

/// Two records of one premise, one after the other, change places.
fn swap_two(random: &mut Random, records: &mut [Vec<u8>], own: &[usize]) {
    if own.is_empty() {
        return;
    }
    let first = random.pick(own);
    let premise = premise_of(&records[first]);
    let next = own
        .iter()
        .find(|&&place| first < place && premise_of(&records[place]) == premise);
    if let Some(&next) = next {
        records.swap(first, next);
    }
}

/// Bytes that are no record, strewn in.
fn with_malformed(random: &mut Random, tape: &[u8]) -> Vec<u8> {
    let mut records = split(tape);
    for _ in 0..=random.below(6) {
        let place = random.below(records.len().max(1));
        let mut bytes: Vec<u8> = match records.get(place) {
            Some(record) if record.len() == RECORD_BYTES => record.clone(),
            _ => vec![0; RECORD_BYTES],
        };
        // more than any retailer or counter has there
        bytes[22 + random.below(2)] = 1 + random.below(255) as u8;
        records.insert(place, bytes);
    }
    records.concat()
}

/// A create of the first premise or the last, somewhere.
fn with_create(random: &mut Random, tape: &[u8]) -> Vec<u8> {
    let mut bytes = [0; RECORD_BYTES];
    bytes[0] = 1;
    let premise = random.pick(&[1, u64::MAX]);
    bytes[8..16].copy_from_slice(&premise.to_le_bytes());
    let mut records = split(tape);
    let place = random.below(records.len().max(1));
    records.insert(place, bytes.to_vec());
    records.concat()
}
