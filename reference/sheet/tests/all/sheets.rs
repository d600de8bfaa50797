//! Each sentence of document 02, change 14.

use crate::{book, filled, row};
use sheet::fill::fill;
use sheet::row::Row;

#[test]
fn both_ends_are_inclusive_and_other_fields_stay() {
    let book = book(&[(10, 101), (19, 0), (30, 103)]);
    let given = [
        row(7, 20, 30),
        row(7, 10, 19),
        row(8, 11, 18),
        row(u32::MAX, 31, 40),
    ];
    let mut rows = given;
    assert_eq!(fill(&book, &mut rows), 0);
    assert_eq!(rows[0], filled(given[0], 1, 0));
    assert_eq!(rows[1], filled(given[1], 2, 1));
    assert_eq!(rows[2], filled(given[2], 0, 0));
    assert_eq!(rows[3], filled(given[3], 0, 0));
}

#[test]
fn unused_places_are_no_files() {
    let mut rows = [row(1, 0, 0), row(1, 0, u64::MAX)];
    assert_eq!(fill(&book(&[]), &mut rows), 0);
    assert_eq!(
        rows,
        [
            filled(row(1, 0, 0), 0, 0),
            filled(row(1, 0, u64::MAX), 0, 0)
        ]
    );
}

#[test]
fn ranges_may_overlap_and_blocks_be_equal() {
    let book = book(&[(1, 0), (u64::MAX, 7)]);
    let mut rows = [row(1, 0, u64::MAX), row(1, 1, 1), row(1, 1, u64::MAX)];
    assert_eq!(fill(&book, &mut rows), 0);
    assert_eq!(
        rows.map(|row| (row.files, row.dark)),
        [(2, 1), (1, 1), (2, 1)]
    );
}

#[test]
fn a_bad_row_changes_none_wherever_it_stands() {
    let book = book(&[(10, 101)]);
    for bad in [row(0, 10, 20), row(1, 11, 10), row(0, 9, 8)] {
        for place in 0..3 {
            let mut given = [row(1, 10, 20); 3];
            given[place] = bad;
            let mut rows = given;
            assert_eq!(fill(&book, &mut rows), 27);
            assert_eq!(rows, given);
        }
    }
}

#[test]
fn an_empty_list_is_accepted() {
    let mut rows: [Row; 0] = [];
    assert_eq!(fill(&book(&[(10, 101)]), &mut rows), 0);
}
