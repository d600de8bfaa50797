//! The single calls and the block calls that are stored beside the proved
//! programs: small books with one thing to see in each, by the topics of the
//! document. Every clause of the rules shows in one of them or on a stored tape;
//! `reference/wrong` tries that.

mod agreements;
mod blocks;
mod both_reads;
mod clock;
mod date_changes;
mod days;
mod evaluation;
mod long_retailers;
mod records;
mod rows;
mod totals;
mod well_kept;
mod windows;

use crate::block_call::BlockCall;
use crate::book::Book;
use crate::days::{BusinessDays, CalendarDays, NO_DAY};
use crate::file::File;
use crate::notice::NOTICE_BUFFER_BYTES;
use crate::order::{kind, status, Order};
use crate::record::{Agreement, Entry, Event, NewFile, NewOrder, Record};
use crate::single_call::Call;

/// A call and what it is called.
pub struct Stored<Lent = Call> {
    pub name: &'static str,
    pub call: Lent,
}

/// The calls with many records, in the order in which they are stored.
pub fn blocks() -> Vec<Stored<BlockCall>> {
    blocks::calls()
}

/// The single calls, in the order in which they are stored.
pub fn all() -> Vec<Stored> {
    let topics = [
        days::calls(),
        records::calls(),
        date_changes::calls(),
        agreements::calls(),
        both_reads::calls(),
        windows::calls(),
        long_retailers::calls(),
        clock::calls(),
        evaluation::calls(),
        rows::calls(),
        well_kept::calls(),
        totals::calls(),
    ];
    topics.into_iter().flatten().collect()
}

/// T of most calls.
const TODAY: u16 = 10;

/// The premise, its retailer R and its S in most calls; Q of most orders.
const PREMISE: u64 = 7;
const HOLDER: u64 = 101;
const SINCE: u16 = 3;
const SUBMITTER: u64 = 202;
const ANOTHER: u64 = 303;

/// C of the files with a service agreement.
const LANDLORDS: u64 = 900;

/// All days that the calls are about are business days, unless a call says
/// otherwise. It is short, since it is stored with every call.
fn business_days() -> Vec<u8> {
    vec![0; 30]
}

/// A calendar with some days of other kinds.
fn calendar_with(days: &[(usize, u8)]) -> Vec<u8> {
    let mut calendar = business_days();
    for &(day, kind) in days {
        calendar[day] = kind;
    }
    calendar
}

/// A call on these files, on day 10.
fn stored(name: &'static str, files: &[File], record: [u8; 24]) -> Stored {
    on_book(name, book(TODAY, files), record)
}

fn on_book(name: &'static str, book: Book, record: [u8; 24]) -> Stored {
    Stored {
        name,
        call: Call {
            book,
            calendar: business_days(),
            record: record.to_vec(),
            buffer_length: NOTICE_BUFFER_BYTES,
        },
    }
}

impl Stored {
    fn with_calendar(mut self, calendar: Vec<u8>) -> Stored {
        self.call.calendar = calendar;
        self
    }

    fn with_record(mut self, record: Vec<u8>) -> Stored {
        self.call.record = record;
        self
    }

    fn with_room(mut self, bytes: usize) -> Stored {
        self.call.buffer_length = bytes;
        self
    }
}

fn book(today: u16, files: &[File]) -> Book {
    Book::of_files(today, files)
}

/// The premise's file with these orders.
fn file(orders: &[Order]) -> File {
    let mut file = File::new(PREMISE, HOLDER, SINCE);
    file.order_count = orders.len() as u8;
    file.orders[..orders.len()].copy_from_slice(orders);
    file
}

/// The same without a retailer.
fn dark_file(orders: &[Order]) -> File {
    File {
        retailer: 0,
        ..file(orders)
    }
}

/// The premise's file with a service agreement and these orders.
fn agreed_file(orders: &[Order]) -> File {
    File {
        agreement: LANDLORDS,
        ..file(orders)
    }
}

/// An order of the submitter's, requested for day 11, that has waited for two
/// business days.
fn order(reference: u32, kind: u8, status: u8, scheduled_day: u16) -> Order {
    Order {
        reference,
        retailer: SUBMITTER,
        requested_day: 11,
        scheduled_day,
        kind,
        status,
        waited: BusinessDays(2),
        cancel_pending_for: CalendarDays(0),
        told: 0,
        counter: 0,
    }
}

fn in_review(reference: u32, kind: u8) -> Order {
    order(reference, kind, status::IN_REVIEW, NO_DAY)
}

fn permit_pending(reference: u32) -> Order {
    order(reference, kind::MOVE_IN, status::PERMIT_PENDING, NO_DAY)
}

fn scheduled(reference: u32, kind: u8, day: u16) -> Order {
    order(reference, kind, status::SCHEDULED, day)
}

/// Three days in Cancel Pending.
fn cancel_pending(reference: u32, kind: u8, day: u16) -> Order {
    Order {
        cancel_pending_for: CalendarDays(3),
        ..order(reference, kind, status::CANCEL_PENDING, day)
    }
}

fn complete(reference: u32, kind: u8, day: u16) -> Order {
    order(reference, kind, status::COMPLETE, day)
}

fn cancelled(reference: u32, kind: u8) -> Order {
    order(reference, kind, status::CANCELLED, NO_DAY)
}

fn told(order: Order) -> Order {
    Order { told: 1, ..order }
}

fn requested(day: u16, order: Order) -> Order {
    Order {
        requested_day: day,
        ..order
    }
}

fn waited(days: u8, order: Order) -> Order {
    Order {
        waited: BusinessDays(days),
        ..order
    }
}

fn pending_for(days: u8, order: Order) -> Order {
    Order {
        cancel_pending_for: CalendarDays(days),
        ..order
    }
}

/// The order keeps this counter, that of its last date change.
fn dated(counter: u32, order: Order) -> Order {
    Order { counter, ..order }
}

fn by(retailer: u64, order: Order) -> Order {
    Order { retailer, ..order }
}

fn own(entry: Entry) -> [u8; 24] {
    Record::OfPremise {
        premise: PREMISE,
        entry,
    }
    .to_bytes()
}

fn establish(retailer: u64) -> [u8; 24] {
    own(Entry::Agreement(Agreement::Establish { retailer }))
}

fn delete(retailer: u64) -> [u8; 24] {
    own(Entry::Agreement(Agreement::Delete { retailer }))
}

fn mark(day: u16) -> [u8; 24] {
    Record::DayMark { day }.to_bytes()
}

fn create(since: u16, retailer: u64) -> [u8; 24] {
    create_with(since, retailer, 0)
}

fn create_with(since: u16, retailer: u64, window: u8) -> [u8; 24] {
    own(Entry::Create(NewFile {
        since,
        retailer,
        window,
    }))
}

fn retire() -> [u8; 24] {
    own(Entry::Retire)
}

/// A new order of another retailer than the held ones have.
fn new_order(reference: u32, kind: u8, day: u16) -> [u8; 24] {
    new_order_of(ANOTHER, reference, kind, day)
}

fn new_order_of(retailer: u64, reference: u32, kind: u8, day: u16) -> [u8; 24] {
    own(Entry::new_order(NewOrder {
        kind,
        day,
        reference,
        retailer,
    }))
}

fn on_order(reference: u32, event: Event) -> [u8; 24] {
    own(Entry::event(reference, event))
}

fn schedule(reference: u32, day: u16) -> [u8; 24] {
    on_order(reference, Event::Scheduled { day })
}

fn permit(reference: u32) -> [u8; 24] {
    on_order(reference, Event::PermitRequired)
}

fn unexecutable(reference: u32) -> [u8; 24] {
    on_order(reference, Event::Unexecutable)
}

fn read(reference: u32, day: u16) -> [u8; 24] {
    on_order(reference, Event::MeterRead { day })
}

fn cancel(reference: u32) -> [u8; 24] {
    cancel_by(SUBMITTER, reference)
}

fn cancel_by(retailer: u64, reference: u32) -> [u8; 24] {
    on_order(reference, Event::Cancel { retailer })
}

fn accept(reference: u32) -> [u8; 24] {
    on_order(reference, Event::CancelAccepted)
}

fn reject(reference: u32) -> [u8; 24] {
    on_order(reference, Event::CancelRejected)
}

fn date_change(reference: u32, day: u16, counter: u32) -> [u8; 24] {
    on_order(reference, Event::DateChange { day, counter })
}
