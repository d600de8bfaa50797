//! Filling in a sheet.

use crate::row::Row;
use stacking::book::Book;
use stacking::well_kept::is_well_kept;

/// Every row was filled in.
pub const FILLED: u8 = 0;
/// The book is not well kept.
pub const NOT_WELL_KEPT: u8 = 2;
/// A row has block 0, or its first premise is above its last.
pub const BAD_ROW: u8 = 27;

/// Fills in each row's two counts: the files in its range, and how many of them
/// have no retailer. With another answer than 0 no row is changed.
pub fn fill(book: &Book, rows: &mut [Row]) -> u8 {
    if !is_well_kept(book) {
        return NOT_WELL_KEPT;
    }
    if rows
        .iter()
        .any(|row| row.block == 0 || row.first > row.last)
    {
        return BAD_ROW;
    }
    for row in rows {
        let range = row.first..=row.last;
        let files = book
            .held()
            .iter()
            .filter(|file| range.contains(&file.premise));
        row.files = files.clone().count() as u32;
        row.dark = files.filter(|file| file.retailer == 0).count() as u32;
    }
    FILLED
}
