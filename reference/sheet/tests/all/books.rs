//! A book that is not well kept: 2, before 27, and nothing is changed.

use crate::{book, row};
use sheet::fill::fill;
use sheet::row::Row;
use stacking::random::Random;
use stacking::sample::{damage, well_kept_book};
use stacking::well_kept::is_well_kept;

#[test]
fn a_damaged_book_comes_first() {
    let mut damaged = book(&[(10, 101), (20, 0)]);
    damaged.files[1].premise = 10;
    for given in [vec![], vec![row(1, 10, 20)], vec![row(0, 10, 20)]] {
        let mut rows: Vec<Row> = given.clone();
        assert_eq!(fill(&damaged, &mut rows), 2);
        assert_eq!(rows, given);
    }
}

#[test]
fn random_books_are_refused_exactly_when_they_are_damaged() {
    let mut met = [0; 2];
    for seed in 0..400 {
        let mut random = Random::new(seed);
        let mut book = well_kept_book(&mut random);
        if seed % 2 == 1 {
            damage(&mut random, &mut book);
        }
        let mut rows = [row(1, 0, u64::MAX)];
        let answer = fill(&book, &mut rows);
        assert_eq!(answer == 0, is_well_kept(&book));
        met[usize::from(answer == 0)] += 1;
    }
    assert!(met[0] > 50 && met[1] > 50, "{met:?}");
}
