//! Random directories, sound ones and such with one rule broken, and texts to
//! look up in them.

use crate::entry::{id_of, text_of, Entry, Rule, DIGIT_COUNTS, RECORD_BYTES};
use stacking::random::Random;
use std::collections::HashSet;

/// The most records of a random directory.
pub const MOST_RECORDS: usize = 300;
/// The longest random text.
pub const LONGEST_TEXT: usize = 40;

/// The rules that are broken in turn.
pub const RULES: [Rule; 8] = [
    Rule::Length,
    Rule::Count,
    Rule::UsedHalf,
    Rule::UnusedHalf,
    Rule::PremiseGiven,
    Rule::LastBytes,
    Rule::IdOnce,
    Rule::PremiseOnce,
];

/// Where a rule is broken: at the first record, one in the middle, the last.
#[derive(Clone, Copy, Debug, PartialEq, Eq, Hash)]
pub enum Place {
    First,
    Middle,
    Last,
}

pub const PLACES: [Place; 3] = [Place::First, Place::Middle, Place::Last];

/// As many sound directories as there are rules, then each rule at each place.
pub const ROUND: u64 = (RULES.len() + RULES.len() * PLACES.len()) as u64;

/// A directory, and texts to look up in it.
#[derive(Clone, Debug)]
pub struct Sample {
    pub directory: Vec<u8>,
    pub texts: Vec<Vec<u8>>,
    pub broken: Option<(Rule, Place)>,
}

/// The sample of a seed: the seeds of a round go through the sound ones and
/// every rule at every place.
pub fn sample(seed: u64) -> Sample {
    let mut random = Random::new(seed);
    let turn = (seed % ROUND) as usize;
    let broken = turn
        .checked_sub(RULES.len())
        .map(|turn| (RULES[turn % RULES.len()], PLACES[turn / RULES.len()]));
    // two records at least where one breaks a rule, so that it can be another's double
    let count = match broken {
        None => random.below(MOST_RECORDS + 1),
        Some(_) => 2 + random.below(MOST_RECORDS - 1),
    };
    let entries = entries(&mut random, count);
    let mut directory: Vec<u8> = entries.iter().flat_map(Entry::bytes).collect();
    if let Some((rule, place)) = broken {
        break_rule(&mut random, &mut directory, rule, place);
    }
    let texts = texts(&mut random, &entries);
    Sample {
        directory,
        texts,
        broken,
    }
}

/// So many records with distinct ESI IDs and premise numbers.
pub fn entries(random: &mut Random, count: usize) -> Vec<Entry> {
    let mut ids = HashSet::new();
    let mut premises = HashSet::new();
    let mut entries: Vec<Entry> = Vec::new();
    while entries.len() < count {
        let text = id_text(random, entries.last());
        let id = id_of(text.as_bytes()).expect("17 or 22 digits");
        let premise = premise(random, entries.last());
        if ids.insert(id) && premises.insert(premise) {
            entries.push(Entry { id, premise });
        }
    }
    entries
}

fn digits(random: &mut Random, count: usize) -> String {
    (0..count)
        .map(|_| (b'0' + random.below(10) as u8) as char)
        .collect()
}

/// An ESI ID: by itself, with the beginning that many share, or close to the
/// one before.
fn id_text(random: &mut Random, before: Option<&Entry>) -> String {
    let count = random.pick(&DIGIT_COUNTS);
    let before = before.map_or(String::new(), |entry| text_of(&entry.id));
    match random.below(4) {
        0 => digits(random, count),
        1 => format!("10443720{}", digits(random, count - 8)),
        // the digits before, cut or carried on, or one of them another
        2 if before.len() > count => before[..count].to_string(),
        2 => format!("{before}{}", digits(random, count - before.len())),
        _ if before.is_empty() => digits(random, count),
        _ => {
            let mut other = before.into_bytes();
            let place = random.below(other.len());
            other[place] = b'0' + random.below(10) as u8;
            String::from_utf8(other).expect("digits")
        }
    }
}

/// A premise number: small, any, or one byte from the one before.
fn premise(random: &mut Random, before: Option<&Entry>) -> u64 {
    let any = match (random.below(3), before) {
        (0, _) => random.below(1_000) as u64,
        (1, Some(entry)) => entry.premise ^ (1 << (8 * random.below(8))),
        _ => random.bits(),
    };
    any.max(1)
}

fn break_rule(random: &mut Random, directory: &mut Vec<u8>, rule: Rule, place: Place) {
    let count = directory.len() / RECORD_BYTES;
    let record = match place {
        Place::First => 0,
        Place::Middle => count / 2,
        Place::Last => count - 1,
    };
    let at = record * RECORD_BYTES;
    let other = (record + 1 + random.below(count - 1)) % count * RECORD_BYTES;
    match rule {
        Rule::Length => cut(random, directory, at),
        Rule::Count => directory[at + 11] = random.pick(&[0, 1, 15, 16, 18, 21, 23, 44, 145, 255]),
        Rule::UsedHalf => {
            let half = random.below(usize::from(directory[at + 11]));
            set_half(directory, at, half, 10 + random.below(6) as u8);
        }
        Rule::UnusedHalf => {
            let short = id_of(digits(random, 17).as_bytes()).expect("17 digits");
            directory[at..at + 12].copy_from_slice(&short);
            let half = 17 + random.below(5);
            set_half(directory, at, half, random.below(15) as u8);
        }
        Rule::PremiseGiven => directory[at + 12..at + 20].fill(0),
        Rule::LastBytes => directory[at + 20 + random.below(4)] = 1 + random.below(255) as u8,
        Rule::IdOnce => directory.copy_within(other..other + 12, at),
        Rule::PremiseOnce => directory.copy_within(other + 12..other + 20, at + 12),
    }
}

/// A directory that is cut in the record at a place, or has bytes too many
/// behind it.
fn cut(random: &mut Random, directory: &mut Vec<u8>, at: usize) {
    let bytes = 1 + random.below(RECORD_BYTES - 1);
    if random.chance(1, 2) {
        directory.truncate(at + bytes);
    } else {
        directory.splice(at..at, (0..bytes).map(|_| random.below(256) as u8));
    }
}

fn set_half(directory: &mut [u8], at: usize, half: usize, value: u8) {
    let byte = &mut directory[at + half / 2];
    *byte = match half % 2 {
        0 => (value << 4) | (*byte & 15),
        _ => (*byte & 0xF0) | value,
    };
}

/// Texts: of records, one of them with each byte off by one; cut and carried
/// on; of every length, digits and any bytes but 0, which no argument can hold.
fn texts(random: &mut Random, entries: &[Entry]) -> Vec<Vec<u8>> {
    let mut texts: Vec<Vec<u8>> = Vec::new();
    for _ in 0..10 {
        let held = match entries {
            [] => digits(random, 17),
            _ => text_of(&entries[random.below(entries.len())].id),
        };
        let held = held.into_bytes();
        if texts.is_empty() {
            for place in 0..held.len() {
                for byte in [held[place] - 1, held[place] + 1] {
                    let mut near = held.clone();
                    near[place] = byte;
                    texts.push(near);
                }
            }
        }
        texts.push(held[..16].to_vec());
        texts.push(held[..17].to_vec());
        texts.push([&held[..17], digits(random, 5).as_bytes()].concat());
        texts.push(held);
    }
    for length in 0..=LONGEST_TEXT {
        texts.push(digits(random, length).into_bytes());
        texts.push((0..length).map(|_| 1 + random.below(255) as u8).collect());
    }
    texts
}
