//! What the tests share: records in short form, and a desk with one premise.

use stacking::book::{record_call, Book};
use stacking::days::CALENDAR_BYTES;
use stacking::file::File;
use stacking::notice::NOTICE_BUFFER_BYTES;
use stacking::order::Order;
use stacking::record::{Agreement, Entry, Event, Fields, NewFile, NewOrder, Record, RECORD_BYTES};
use stacking::rules::OnePremise;

/// The byte that buffers are filled with, to see what is written.
pub const PATTERN: u8 = 0xA5;

/// The desk's premise.
pub const PREMISE: u64 = 7;

/// The desk's retailer R at the start, the one that submits orders, and a third.
pub const HOLDER: u64 = 101;
pub const SUBMITTER: u64 = 202;
pub const ANOTHER: u64 = 303;

pub const TDSP: u64 = 0;
pub const NONE: u16 = 4_096;

pub fn business_days() -> Vec<u8> {
    vec![0; CALENDAR_BYTES]
}

/// A calendar of business days with some days of other kinds.
pub fn calendar_with(kinds: &[(u16, u8)]) -> Vec<u8> {
    let mut calendar = business_days();
    for &(day, kind) in kinds {
        calendar[usize::from(day)] = kind;
    }
    calendar
}

pub fn buffer() -> Vec<u8> {
    vec![PATTERN; NOTICE_BUFFER_BYTES]
}

pub fn of_premise(premise: u64, entry: Entry) -> [u8; RECORD_BYTES] {
    Record::OfPremise { premise, entry }.to_bytes()
}

pub fn mark(day: u16) -> [u8; RECORD_BYTES] {
    Record::DayMark { day }.to_bytes()
}

pub fn create(since: u16, retailer: u64) -> Entry {
    create_with(since, retailer, 0)
}

/// With a window; 0 means two business days.
pub fn create_with(since: u16, retailer: u64, window: u8) -> Entry {
    Entry::Create(NewFile {
        since,
        retailer,
        window,
    })
}

pub fn new_order(kind: u8, day: u16, reference: u32) -> Entry {
    new_order_of(SUBMITTER, kind, day, reference)
}

pub fn new_order_of(retailer: u64, kind: u8, day: u16, reference: u32) -> Entry {
    Entry::new_order(NewOrder {
        kind,
        day,
        reference,
        retailer,
    })
}

pub fn scheduled(reference: u32, day: u16) -> Entry {
    Entry::event(reference, Event::Scheduled { day })
}

pub fn permit(reference: u32) -> Entry {
    Entry::event(reference, Event::PermitRequired)
}

pub fn unexecutable(reference: u32) -> Entry {
    Entry::event(reference, Event::Unexecutable)
}

pub fn read(reference: u32, day: u16) -> Entry {
    Entry::event(reference, Event::MeterRead { day })
}

pub fn cancel(reference: u32) -> Entry {
    cancel_by(SUBMITTER, reference)
}

pub fn cancel_by(retailer: u64, reference: u32) -> Entry {
    Entry::event(reference, Event::Cancel { retailer })
}

pub fn accept(reference: u32) -> Entry {
    Entry::event(reference, Event::CancelAccepted)
}

pub fn reject(reference: u32) -> Entry {
    Entry::event(reference, Event::CancelRejected)
}

pub fn date_change(reference: u32, day: u16, counter: u32) -> Entry {
    Entry::event(reference, Event::DateChange { day, counter })
}

pub fn establish(retailer: u64) -> Entry {
    Entry::Agreement(Agreement::Establish { retailer })
}

pub fn delete(retailer: u64) -> Entry {
    Entry::Agreement(Agreement::Delete { retailer })
}

/// A notice as code, kind, day, reference, addressee.
pub type Notice = (u8, u8, u16, u32, u64);

pub fn notice(bytes: &[u8]) -> Notice {
    let fields = Fields::from_bytes(bytes.try_into().unwrap());
    (
        fields.kind,
        fields.detail,
        fields.day,
        fields.reference,
        fields.retailer,
    )
}

/// A book with one premise, and beside it the one-premise rules. Every record
/// is sent to both, and both must do the same.
pub struct Desk {
    pub calendar: Vec<u8>,
    pub book: Book,
    pub rules: OnePremise,
    /// The notices of the last record.
    pub notices: Vec<Notice>,
}

impl Desk {
    /// On a start day, all days business days, the premise created since day 0.
    pub fn new(start_day: u16) -> Desk {
        Desk::with_calendar(start_day, business_days())
    }

    pub fn with_calendar(start_day: u16, calendar: Vec<u8>) -> Desk {
        Desk::created(start_day, calendar, create(0, HOLDER))
    }

    /// The same with another retailer, or none.
    pub fn created_with(start_day: u16, retailer: u64) -> Desk {
        Desk::created(start_day, business_days(), create(0, retailer))
    }

    fn created(start_day: u16, calendar: Vec<u8>, created: Entry) -> Desk {
        let mut desk = Desk {
            calendar,
            book: Book::fresh(start_day),
            rules: OnePremise::new(start_day),
            notices: Vec::new(),
        };
        assert_eq!(desk.send(created), 0);
        desk
    }

    /// A desk whose premise has this file, on a given day.
    pub fn with_file(today: u16, calendar: Vec<u8>, file: File) -> Desk {
        Desk {
            calendar,
            book: Book::of_files(today, &[file]),
            rules: OnePremise {
                today,
                file: Some(file),
            },
            notices: Vec::new(),
        }
    }

    /// Sends an own record of the premise.
    pub fn send(&mut self, entry: Entry) -> u8 {
        self.send_bytes(&of_premise(PREMISE, entry))
    }

    /// Sends records that must all be taken.
    pub fn take(&mut self, entries: &[Entry]) {
        for &entry in entries {
            assert_eq!(self.send(entry), 0, "{entry:?}");
        }
    }

    /// Marks days up to and including this one.
    pub fn mark_to(&mut self, day: u16) {
        while self.book.today < day {
            assert_eq!(self.send_bytes(&mark(self.book.today + 1)), 0);
        }
    }

    pub fn send_bytes(&mut self, record: &[u8]) -> u8 {
        let mut buffer = buffer();
        let (answer, count) = record_call(&mut self.book, &self.calendar, record, &mut buffer);
        let outcome = self.rules.step(&self.calendar, record);
        assert_eq!(outcome.answer, answer);
        assert_eq!(outcome.notices.concat(), buffer[..count * RECORD_BYTES]);
        assert!(buffer[count * RECORD_BYTES..]
            .iter()
            .all(|&byte| byte == PATTERN));
        assert_eq!(self.rules.today, self.book.today);
        assert_eq!(self.rules.file.as_slice(), self.book.held());
        self.notices = outcome.notices.iter().map(|bytes| notice(bytes)).collect();
        answer.number()
    }

    pub fn file(&self) -> &File {
        &self.book.files[0]
    }

    pub fn order(&self, reference: u32) -> &Order {
        let place = self.file().place_of(reference).expect("the order is held");
        &self.file().orders[place]
    }

    pub fn status(&self, reference: u32) -> u8 {
        self.order(reference).status
    }
}

/// Sends each record and sees its answer and the notices that it gives.
pub fn played(desk: &mut Desk, records: &[(Entry, u8, &[Notice])]) {
    for (entry, answer, notices) in records {
        assert_eq!(desk.send(*entry), *answer, "{entry:?}");
        assert_eq!(desk.notices, *notices, "{entry:?}");
    }
}

/// An order in any state, in the document's order of fields: reference, kind,
/// requested day, scheduled day, status. The submitter's, nothing waited.
pub fn order(reference: u32, kind: u8, requested: u16, scheduled: u16, status: u8) -> Order {
    Order {
        reference,
        kind,
        retailer: SUBMITTER,
        requested_day: requested,
        scheduled_day: scheduled,
        status,
        ..Order::EMPTY
    }
}

/// A file of the desk's premise with these orders.
pub fn file_with(orders: &[Order]) -> File {
    let mut file = File::new(PREMISE, HOLDER, 0);
    file.orders[..orders.len()].copy_from_slice(orders);
    file.order_count = orders.len() as u8;
    file
}
