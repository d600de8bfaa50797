//! What the random sheets meet.

use sheet::fill::fill;
use sheet::sample::sample;
use stacking::tape::played;

#[test]
fn every_kind_of_row_is_met() {
    let (mut answers, mut empty, mut full, mut from_0, mut to_last, mut shared) =
        ([0; 28], 0, 0, 0, 0, 0);
    for seed in 0..300 {
        let sample = sample(seed);
        let book = played(&sample.calendar, &sample.tape);
        let mut rows = sample.rows.clone();
        answers[usize::from(fill(&book, &mut rows))] += 1;
        empty += usize::from(rows.is_empty());
        full += usize::from(rows.len() == 64);
        from_0 += rows.iter().filter(|row| row.first == 0).count();
        to_last += rows.iter().filter(|row| row.last == u64::MAX).count();
        let held = |premise: u64| book.held().iter().any(|file| file.premise == premise);
        shared += rows
            .iter()
            .filter(|row| held(row.first) && held(row.last))
            .count();
    }
    assert_eq!((answers[0], answers[27]), (150, 150));
    assert!(empty > 10 && full > 10 && from_0 > 50 && to_last > 50 && shared > 50);
}
