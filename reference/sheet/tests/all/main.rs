//! The tests of the second program's sheet, in one program: a topic a module.

mod books;
mod programs;
mod samples;
mod sheets;
mod sums;
mod texts;

use sheet::row::Row;
use stacking::book::Book;
use stacking::file::File;

/// A book with a file of each premise, with its retailer.
fn book(files: &[(u64, u64)]) -> Book {
    let mut book = Book::fresh(5);
    for (place, (premise, retailer)) in files.iter().enumerate() {
        let file = File::new(*premise, *retailer, 0);
        book.insert(place, file).expect("there is a place left");
    }
    book
}

/// A row with any counts.
fn row(block: u32, first: u64, last: u64) -> Row {
    Row {
        block,
        first,
        last,
        files: 9,
        dark: 8,
    }
}

fn filled(row: Row, files: u32, dark: u32) -> Row {
    Row { files, dark, ..row }
}
