//! Random sheets for a book: ranges that touch, overlap, begin at 0 and end at
//! the last number, counts of any value, and in some a bad row.

use crate::row::{Row, MOST_ROWS};
use stacking::book::Book;
use stacking::random::Random;
use stacking::sample::{calendar, tape, TapeOptions};
use stacking::tape::played;

/// A calendar, a tape and the rows of a sheet over the book that it leads to.
#[derive(Clone, Debug)]
pub struct Sample {
    pub calendar: Vec<u8>,
    pub tape: Vec<u8>,
    pub rows: Vec<Row>,
}

/// Where a bad row stands: of six seeds in a row three have none, and each of
/// the others one place.
#[derive(Clone, Copy, Debug, PartialEq, Eq)]
pub enum BadRow {
    None,
    First,
    Middle,
    Last,
}

const TURNS: [BadRow; 6] = [
    BadRow::None,
    BadRow::First,
    BadRow::None,
    BadRow::Middle,
    BadRow::None,
    BadRow::Last,
];

/// The sample of a seed.
pub fn sample(seed: u64) -> Sample {
    let mut random = Random::new(seed);
    let calendar = calendar(&mut random);
    let options = TapeOptions {
        records: 200,
        premises: None,
        never_full: false,
    };
    let tape = tape(&mut random, &calendar, &options);
    let book = played(&calendar, &tape);
    let bad = TURNS[(seed % TURNS.len() as u64) as usize];
    let rows = rows(&mut random, &book, bad);
    Sample {
        calendar,
        tape,
        rows,
    }
}

/// Rows for a book: none, some or 64.
pub fn rows(random: &mut Random, book: &Book, bad: BadRow) -> Vec<Row> {
    let least = if bad == BadRow::None { 0 } else { 1 };
    let some = least + random.below(12);
    let count = random.pick(&[least, some, some, some, MOST_ROWS]);
    let ends = ends(book);
    let mut rows: Vec<Row> = if random.chance(1, 3) {
        touching(random, &ends, count)
    } else {
        (0..count).map(|_| row(random, &ends)).collect()
    };
    let place = match bad {
        BadRow::None => return rows,
        BadRow::First => 0,
        BadRow::Middle => rows.len() / 2,
        BadRow::Last => rows.len() - 1,
    };
    spoil(random, &mut rows[place]);
    rows
}

/// The numbers at which something changes: each held premise, one less, one
/// more; 0, 1 and the last number.
fn ends(book: &Book) -> Vec<u64> {
    let mut ends = vec![0, 1, u64::MAX];
    for file in book.held() {
        let premise = file.premise;
        ends.extend([
            premise.saturating_sub(1),
            premise,
            premise.saturating_add(1),
        ]);
    }
    ends
}

fn row(random: &mut Random, ends: &[u64]) -> Row {
    let (one, other) = (random.pick(ends), random.pick(ends));
    counted(random, one.min(other), one.max(other))
}

fn counted(random: &mut Random, first: u64, last: u64) -> Row {
    let (largest, any) = (u32::MAX, random.bits() as u32);
    Row {
        block: random.pick(&[1, 1, 2, 700, largest]),
        first,
        last,
        files: random.pick(&[0, 0, 64, largest, any]),
        dark: random.pick(&[0, 0, 1, largest, any]),
    }
}

/// Ranges of which each begins where another ends, in any order.
fn touching(random: &mut Random, ends: &[u64], count: usize) -> Vec<Row> {
    let mut cuts: Vec<u64> = (0..count).map(|_| random.pick(ends)).collect();
    cuts.sort_unstable();
    cuts.dedup();
    let mut rows = Vec::new();
    let mut first = 0;
    for cut in cuts {
        if first <= cut {
            rows.push(counted(random, first, cut));
            first = cut.saturating_add(1);
        }
    }
    while rows.len() < count {
        rows.push(row(random, ends));
    }
    random.shuffle(&mut rows);
    rows
}

fn spoil(random: &mut Random, row: &mut Row) {
    match random.below(3) {
        0 => row.block = 0,
        1 => {
            row.first = random.bits() | 1;
            row.last = row.first - 1;
        }
        _ => {
            row.first = u64::MAX;
            row.last = 0;
        }
    }
}
