//! Books and lent buffers as the programs that make single and block calls print
//! them. The lines stand at the top of `bin/callcheck.rs`.

use crate::book::Book;
use crate::file::File;
use crate::order::Order;
use crate::waiting::{waiting_orders, Waiting};
use std::io::{self, Write};

/// What a lent buffer is filled with.
pub const PATTERN: u8 = 165;

/// A line for each byte from a place on that the buffer was not lent with.
pub fn write_changed(
    letter: char,
    buffer: &[u8],
    from: usize,
    out: &mut dyn Write,
) -> io::Result<()> {
    for (place, byte) in buffer.iter().enumerate().skip(from) {
        if *byte != PATTERN {
            writeln!(out, "{letter} {place} {byte}")?;
        }
    }
    Ok(())
}

/// The totals are what the question hands out.
pub fn write_book(book: &Book, out: &mut dyn Write) -> io::Result<()> {
    write!(out, "b {} {}", book.today, book.file_count)?;
    write_totals(&waiting_orders(book), out)?;
    for (place, file) in book.files.iter().enumerate() {
        if place < usize::from(book.file_count) || *file != File::EMPTY {
            write_file(place, file, out)?;
        }
    }
    Ok(())
}

/// The end of a line: the four totals.
pub fn write_totals(waiting: &Waiting, out: &mut dyn Write) -> io::Result<()> {
    let [in_review, permit_pending, scheduled, cancel_pending] = waiting.each();
    writeln!(
        out,
        " {in_review} {permit_pending} {scheduled} {cancel_pending}"
    )
}

fn write_file(file_place: usize, file: &File, out: &mut dyn Write) -> io::Result<()> {
    writeln!(
        out,
        "f {file_place} {} {} {} {} {} {} {}",
        file.premise,
        file.retailer,
        file.since,
        file.order_count,
        file.window.0,
        file.agreement,
        file.moved_in
    )?;
    for (place, order) in file.orders.iter().enumerate() {
        if place < usize::from(file.order_count) || *order != Order::EMPTY {
            writeln!(
                out,
                "o {file_place} {place} {} {} {} {} {} {} {} {} {} {}",
                order.reference,
                order.kind,
                order.retailer,
                order.requested_day,
                order.scheduled_day,
                order.status,
                order.waited.0,
                order.cancel_pending_for.0,
                order.told,
                order.counter
            )?;
        }
    }
    Ok(())
}
