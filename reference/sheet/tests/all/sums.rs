//! "Where the ranges don't overlap and every held P is in one, the sums over the
//! rows equal the book's two counts."

use crate::row;
use sheet::fill::fill;
use sheet::row::Row;
use stacking::book::Book;
use stacking::random::Random;
use stacking::sample::well_kept_book;

fn sums(rows: &[Row]) -> (u32, u32) {
    let files = rows.iter().map(|row| row.files).sum();
    (files, rows.iter().map(|row| row.dark).sum())
}

fn counts(book: &Book) -> (u32, u32) {
    let dark = book.held().iter().filter(|file| file.retailer == 0);
    (book.held().len() as u32, dark.count() as u32)
}

/// Ranges that cover every number once, in any order.
fn cover(random: &mut Random, book: &Book) -> Vec<Row> {
    let mut cuts: Vec<u64> = book.held().iter().map(|file| file.premise).collect();
    cuts.retain(|_| random.chance(1, 2));
    let mut rows = Vec::new();
    let mut first = 0;
    for cut in cuts.into_iter().filter(|cut| *cut < u64::MAX) {
        rows.push(row(1, first, cut));
        first = cut + 1;
    }
    rows.push(row(1, first, u64::MAX));
    random.shuffle(&mut rows);
    rows
}

#[test]
fn covers_sum_to_the_books_counts() {
    let mut some = 0;
    for seed in 0..300 {
        let mut random = Random::new(seed);
        let book = well_kept_book(&mut random);
        let mut rows = cover(&mut random, &book);
        assert_eq!(fill(&book, &mut rows), 0);
        assert_eq!(sums(&rows), counts(&book));
        some += counts(&book).1;
    }
    assert!(some > 0);
}

#[test]
fn overlapping_ranges_sum_to_more() {
    let book = crate::book(&[(10, 101), (19, 0), (30, 103)]);
    let mut rows = [row(1, 10, 19), row(1, 19, 30)];
    assert_eq!(fill(&book, &mut rows), 0);
    assert_eq!(sums(&rows), (4, 2));
    assert_eq!(counts(&book), (3, 1));
}
