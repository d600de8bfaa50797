//! The tapes that are measured. They are the same on every run.

use stacking::answer::Answer;
use stacking::book::{record_call, Book, FILES_A_BOOK};
use stacking::days::{CALENDAR_BYTES, LAST_DAY};
use stacking::file::File;
use stacking::notice::NOTICE_BUFFER_BYTES;
use stacking::order::{kind, status, Order};
use stacking::random::Random;
use stacking::record::{Entry, Event, NewFile, NewOrder, Record, RECORD_BYTES};
use stacking::tape::TAPE_BYTES;

/// A tape and the calendar it is for.
pub struct Tape {
    pub name: &'static str,
    pub calendar: Vec<u8>,
    pub bytes: Vec<u8>,
    /// How many records come before the day marks that are measured.
    pub before_marks: usize,
}

const MARKS: u16 = 1_000;

/// One day in this many is a business day on the tape of marks.
const BUSINESS_DAY_EVERY: usize = 50;

/// 1,000 marks over a full book: 64 files with 8 orders each.
///
/// With a usual calendar every order would be closed after some thirty days and
/// the rest of the marks would have nothing to do. So business days are rare
/// here: the waits, counted in business days, last to the end of the tape, and
/// scheduled days come into window one file after the other. Each file holds
/// - two switches Scheduled for one day, of which one is cancelled in window;
/// - a move in and a drop Scheduled for days of their own, told in window;
/// - a move in that is Permit Pending to the end;
/// - three drops, requested for a far day, In Review to the last mark.
pub fn marks_tape() -> Tape {
    let mut bytes = Vec::new();
    for file in 0..FILES_A_BOOK as u16 {
        for entry in full_file(file) {
            bytes.extend(of_premise(u64::from(file + 1) * 7, entry));
        }
    }
    let before_marks = bytes.len() / RECORD_BYTES;
    for day in 1..=MARKS {
        bytes.extend(Record::DayMark { day }.to_bytes());
    }
    let calendar = (0..CALENDAR_BYTES)
        .map(|day| u8::from(day == 0 || day % BUSINESS_DAY_EVERY != 0))
        .collect();
    Tape {
        name: "marks",
        calendar,
        bytes,
        before_marks,
    }
}

/// The records that fill one file: a create, 8 orders, 5 answers.
fn full_file(file: u16) -> Vec<Entry> {
    const FAR_DAY: u16 = 4_000;
    let spread = |offset: u16| 160 + (file * 13 + offset) % 830;
    let order = |reference, kind, day| {
        Entry::new_order(NewOrder {
            kind,
            day,
            reference,
            retailer: 200 + u64::from(reference),
        })
    };
    let scheduled = |reference, day| Entry::event(reference, Event::Scheduled { day });
    let mut entries = vec![
        Entry::Create(NewFile {
            since: 0,
            retailer: 101,
            window: 0,
        }),
        order(1, kind::SELF_SELECTED_SWITCH, 60),
        order(2, kind::SELF_SELECTED_SWITCH, 60),
        order(3, kind::MOVE_IN, 80),
        order(4, kind::MASS_TRANSITION_DROP, FAR_DAY),
        order(5, kind::MOVE_IN, 90),
    ];
    entries.extend((6..=8).map(|reference| order(reference, kind::MASS_TRANSITION_DROP, FAR_DAY)));
    entries.extend([
        scheduled(1, spread(0)),
        scheduled(2, spread(0)),
        scheduled(3, spread(277)),
        scheduled(4, spread(553)),
        Entry::event(5, Event::PermitRequired),
    ]);
    entries
}

const MIXED_PREMISES: u64 = 60;

/// 2,730 records as a market might send them, over 60 premises and a calendar
/// of weeks: orders are sent, scheduled, read, sometimes cancelled or held up by
/// a permit. One record in forty is a day mark, and one in thirty is wrong.
pub fn mixed_tape() -> Tape {
    let calendar: Vec<u8> = (0..CALENDAR_BYTES)
        .map(|day| [0, 0, 0, 0, 0, 1, 2][day % 7])
        .collect();
    let mut market = Market {
        random: Random::new(2_730),
        next_reference: 1,
    };
    let mut book = Book::fresh(0);
    let mut buffer = vec![0; NOTICE_BUFFER_BYTES];
    let mut bytes = Vec::new();
    while bytes.len() < TAPE_BYTES {
        let record = market.next_record(&book);
        let (answer, _) = record_call(&mut book, &calendar, &record, &mut buffer);
        let wrong = answer != Answer::Accepted;
        if !wrong || market.random.chance(1, 3) {
            bytes.extend(record);
        }
    }
    Tape {
        name: "mixed",
        calendar,
        bytes,
        before_marks: 0,
    }
}

/// What sends the mixed tape's records.
struct Market {
    random: Random,
    next_reference: u32,
}

impl Market {
    fn next_record(&mut self, book: &Book) -> [u8; RECORD_BYTES] {
        if self.random.chance(1, 40) {
            let day = book.today + 1;
            return Record::DayMark { day }.to_bytes();
        }
        let premise = (self.random.below(MIXED_PREMISES as usize) as u64 + 1) * 1_000_003;
        let file = book.held().iter().find(|file| file.premise == premise);
        let entry = match file {
            None => Entry::Create(NewFile {
                since: book.today,
                retailer: 101,
                window: 0,
            }),
            Some(file) => self.entry(book.today, file),
        };
        of_premise(premise, entry)
    }

    /// What comes next for a file: an answer to one of its open orders, now and
    /// then its retirement, else a new order.
    fn entry(&mut self, today: u16, file: &File) -> Entry {
        if self.random.chance(1, 12) {
            return Entry::event(self.next_reference, Event::Unexecutable);
        }
        let due = |order: &&Order| is_due(order, today);
        match file.held().iter().find(due) {
            Some(order) => Entry::event(order.reference, self.event(today, order)),
            None if !file.has_open_order() && self.random.chance(1, 20) => Entry::Retire,
            None => self.new_order(today),
        }
    }

    fn new_order(&mut self, today: u16) -> Entry {
        self.next_reference += 1;
        let kind = self.random.pick(&[1, 1, 1, 2, 2, 3, 3, 4, 5]);
        let day = (today + self.random.below(8) as u16).min(LAST_DAY);
        Entry::new_order(NewOrder {
            kind,
            day: if kind == kind::STANDARD_SWITCH {
                0
            } else {
                day
            },
            reference: self.next_reference,
            retailer: self.random.pick(&[101, 202, 303, 404]),
        })
    }

    fn event(&mut self, today: u16, order: &Order) -> Event {
        let chosen = self.random.below(10);
        match order.status {
            status::IN_REVIEW if order.kind == kind::MOVE_IN && chosen < 2 => Event::PermitRequired,
            status::SCHEDULED if chosen < 9 => Event::MeterRead {
                day: order.scheduled_day,
            },
            status::IN_REVIEW | status::SCHEDULED if chosen == 9 => Event::Cancel {
                retailer: order.retailer,
            },
            status::CANCEL_PENDING if chosen < 7 => Event::CancelAccepted,
            status::CANCEL_PENDING => Event::CancelRejected,
            _ => Event::Scheduled {
                day: order.requested_day.max(today + 1).min(LAST_DAY),
            },
        }
    }
}

/// Does the order wait for an answer, or for a read that is due?
fn is_due(order: &Order, today: u16) -> bool {
    order.is_open() && (!order.is_scheduled() || order.scheduled_day <= today)
}

fn of_premise(premise: u64, entry: Entry) -> [u8; RECORD_BYTES] {
    Record::OfPremise { premise, entry }.to_bytes()
}
