//! Books and lent bytes as the programs that make single and block calls are
//! handed them. The layout stands at the top of `bin/callcheck.rs`.

use crate::book::Book;
use crate::days::{BusinessDays, CalendarDays};
use crate::file::File;
use crate::order::Order;
use crate::waiting::Waiting;

/// No call needs more bytes than this for a calendar, a record, a stretch or a
/// buffer.
const LONGEST: usize = 1 << 20;

pub fn push_book(bytes: &mut Vec<u8>, book: &Book) {
    bytes.extend(book.today.to_le_bytes());
    bytes.push(book.file_count);
    for total in book.waiting.each() {
        bytes.extend(total.to_le_bytes());
    }
    for file in &book.files {
        bytes.extend(file.premise.to_le_bytes());
        bytes.extend(file.retailer.to_le_bytes());
        bytes.extend(file.since.to_le_bytes());
        bytes.push(file.order_count);
        bytes.push(file.window.0);
        bytes.extend(file.agreement.to_le_bytes());
        bytes.push(file.moved_in);
        for order in &file.orders {
            push_order(bytes, order);
        }
    }
}

fn push_order(bytes: &mut Vec<u8>, order: &Order) {
    bytes.extend(order.reference.to_le_bytes());
    bytes.push(order.kind);
    bytes.extend(order.retailer.to_le_bytes());
    bytes.extend(order.requested_day.to_le_bytes());
    bytes.extend(order.scheduled_day.to_le_bytes());
    bytes.push(order.status);
    bytes.push(order.waited.0);
    bytes.push(order.cancel_pending_for.0);
    bytes.push(order.told);
    bytes.extend(order.counter.to_le_bytes());
}

/// Bytes that are lent: their number, then they themselves.
pub fn push_lent(bytes: &mut Vec<u8>, lent: &[u8]) {
    push_length(bytes, lent.len());
    bytes.extend(lent);
}

/// The length of a buffer, whose bytes are not handed in.
pub fn push_length(bytes: &mut Vec<u8>, length: usize) {
    bytes.extend((length as u32).to_le_bytes());
}

/// The calls that stand one after another in these bytes, each read by `call`.
pub fn read_calls<'a, Call>(
    bytes: &'a [u8],
    call: impl Fn(&mut Left<'a>) -> Result<Call, String>,
) -> Result<Vec<Call>, String> {
    let mut left = Left(bytes);
    let mut calls = Vec::new();
    while !left.0.is_empty() {
        let read = call(&mut left).map_err(|what| format!("call {} {what}", calls.len() + 1))?;
        calls.push(read);
    }
    Ok(calls)
}

/// What is left of the input.
pub struct Left<'a>(&'a [u8]);

impl<'a> Left<'a> {
    fn take(&mut self, count: usize) -> Result<&'a [u8], String> {
        if self.0.len() < count {
            return Err("breaks off; give whole calls, as --make writes them".into());
        }
        let (taken, rest) = self.0.split_at(count);
        self.0 = rest;
        Ok(taken)
    }

    fn number<const WIDTH: usize>(&mut self) -> Result<[u8; WIDTH], String> {
        let bytes = self.take(WIDTH)?;
        Ok(bytes.try_into().expect("so many bytes were taken"))
    }

    fn byte(&mut self) -> Result<u8, String> {
        self.number().map(u8::from_le_bytes)
    }

    fn two(&mut self) -> Result<u16, String> {
        self.number().map(u16::from_le_bytes)
    }

    fn four(&mut self) -> Result<u32, String> {
        self.number().map(u32::from_le_bytes)
    }

    fn eight(&mut self) -> Result<u64, String> {
        self.number().map(u64::from_le_bytes)
    }

    pub fn length(&mut self) -> Result<usize, String> {
        match self.four()? as usize {
            length if length <= LONGEST => Ok(length),
            length => Err(format!(
                "gives a length of {length}; give at most {LONGEST}"
            )),
        }
    }

    pub fn lent_bytes(&mut self) -> Result<Vec<u8>, String> {
        let length = self.length()?;
        Ok(self.take(length)?.to_vec())
    }

    pub fn book(&mut self) -> Result<Book, String> {
        let mut book = Book::fresh(0);
        book.today = self.two()?;
        book.file_count = self.byte()?;
        book.waiting = Waiting::new([self.two()?, self.two()?, self.two()?, self.two()?]);
        for file in &mut book.files {
            *file = self.file()?;
        }
        Ok(book)
    }

    fn file(&mut self) -> Result<File, String> {
        let mut file = File {
            premise: self.eight()?,
            retailer: self.eight()?,
            since: self.two()?,
            order_count: self.byte()?,
            window: BusinessDays(self.byte()?),
            agreement: self.eight()?,
            moved_in: self.byte()?,
            ..File::EMPTY
        };
        for order in &mut file.orders {
            *order = self.order()?;
        }
        Ok(file)
    }

    fn order(&mut self) -> Result<Order, String> {
        Ok(Order {
            reference: self.four()?,
            kind: self.byte()?,
            retailer: self.eight()?,
            requested_day: self.two()?,
            scheduled_day: self.two()?,
            status: self.byte()?,
            waited: BusinessDays(self.byte()?),
            cancel_pending_for: CalendarDays(self.byte()?),
            told: self.byte()?,
            counter: self.four()?,
        })
    }
}
