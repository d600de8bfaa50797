//! Random records that suit the book they are for.

use super::{ENDS_ALIKE, ENDS_LIKE_NONE, USUAL_RETAILER};
use crate::book::Book;
use crate::clock::LONGEST_WAIT;
use crate::days::{LAST_DAY, NO_DAY};
use crate::file::{File, NO_AGREEMENT};
use crate::order::{kind, status, Order, LARGEST_RETAILER};
use crate::premise::{DAYS_AHEAD, DAYS_BACK};
use crate::random::Random;
use crate::record::{Agreement, Entry, Event, Fields, NewFile, NewOrder, Record, RECORD_BYTES};

/// Makes records for a set of premises and a few retailers. Most suit the book
/// and are taken; the rest meet one row or another.
pub struct RecordMaker {
    premises: Vec<u64>,
    retailers: Vec<u64>,
    next_reference: u32,
    /// How often each sort of record comes.
    weights: [(usize, Sort); 8],
}

#[derive(Clone, Copy)]
enum Sort {
    Create,
    Retire,
    NewOrder,
    FittingEvent,
    AnyEvent,
    Agreement,
    WrongMark,
    Malformed,
}

impl RecordMaker {
    /// For a tape about this many premises. Some makers send mostly new orders,
    /// so that stacks fill up; with many premises they send many creates.
    pub fn new(random: &mut Random, premise_count: usize) -> RecordMaker {
        let create = 2 + premise_count / 4;
        let new_order = random.pick(&[20, 30, 90]);
        let fitting_event = random.pick(&[10, 30, 60]);
        RecordMaker {
            premises: premise_numbers(random, premise_count),
            retailers: retailer_numbers(random),
            next_reference: random.pick(&[1, 1, 500, u32::MAX - 40]),
            weights: [
                (create, Sort::Create),
                (1 + create / 2, Sort::Retire),
                (new_order, Sort::NewOrder),
                (fitting_event, Sort::FittingEvent),
                (4, Sort::AnyEvent),
                (3, Sort::Agreement),
                (1, Sort::WrongMark),
                (2, Sort::Malformed),
            ],
        }
    }

    /// For single records on a book: about its premises, and two that it hardly
    /// holds.
    pub fn for_book(random: &mut Random, book: &Book) -> RecordMaker {
        let mut premises = vec![1, random.bits().max(1)];
        premises.extend(book.held().iter().map(|file| file.premise));
        RecordMaker {
            premises,
            retailers: retailer_numbers(random),
            next_reference: random.pick(&[1, 500]),
            weights: [
                (6, Sort::Create),
                (5, Sort::Retire),
                (20, Sort::NewOrder),
                (45, Sort::FittingEvent),
                (10, Sort::AnyEvent),
                (8, Sort::Agreement),
                (2, Sort::WrongMark),
                (4, Sort::Malformed),
            ],
        }
    }

    /// A record of kinds 1 to 9, 11 or 12, a day mark for a wrong day, or no record at all.
    pub fn make(&mut self, random: &mut Random, book: &Book) -> [u8; RECORD_BYTES] {
        match random.weighted(&self.weights) {
            Sort::Malformed => self.malformed(random, book),
            Sort::WrongMark => wrong_mark(random, book.today).to_bytes(),
            sort => self.own_record(random, book, sort).to_bytes(),
        }
    }

    fn own_record(&mut self, random: &mut Random, book: &Book, sort: Sort) -> Record {
        let premise = self.premise_for(random, book, sort);
        let file = book.held().iter().find(|file| file.premise == premise);
        let entry = match sort {
            Sort::Create => Entry::Create(NewFile {
                since: day_near(random, book.today),
                retailer: self.retailer_or_none(random),
                window: random.pick(&[0, 0, 0, 1, 2, 3, 4, 5]),
            }),
            Sort::Retire => Entry::Retire,
            Sort::NewOrder => Entry::new_order(self.new_order(random, book.today, file)),
            Sort::Agreement => Entry::Agreement(self.agreement(random, file)),
            Sort::FittingEvent => self.event(random, book.today, file, fitting_event),
            _ => self.event(random, book.today, file, any_event),
        };
        Record::OfPremise { premise, entry }
    }

    /// Mostly one for which the record makes sense: not held yet for a create,
    /// without open orders for a retire, held for a new order, with an order
    /// for an event.
    fn premise_for(&self, random: &mut Random, book: &Book, sort: Sort) -> u64 {
        let suits = |premise: &u64| {
            let file = book.held().iter().find(|file| file.premise == *premise);
            match sort {
                Sort::Create => file.is_none(),
                Sort::Retire => file.is_some_and(|file| !file.has_open_order()),
                Sort::NewOrder | Sort::Agreement => file.is_some(),
                _ => file.is_some_and(|file| file.order_count > 0),
            }
        };
        let suiting: Vec<u64> = self.premises.iter().copied().filter(suits).collect();
        if !suiting.is_empty() && random.chance(9, 10) {
            return random.pick(&suiting);
        }
        random.pick(&self.premises)
    }

    fn new_order(&mut self, random: &mut Random, today: u16, file: Option<&File>) -> NewOrder {
        let kind = random.pick(&[1, 1, 2, 3, 3, 4, 4, 5]);
        NewOrder {
            kind,
            day: match kind {
                kind::STANDARD_SWITCH => 0,
                _ => requested_day(random, today, file),
            },
            reference: self.reference(random, file),
            retailer: random.pick(&self.retailers),
        }
    }

    /// Mostly one not used before, sometimes one that the file holds.
    fn reference(&mut self, random: &mut Random, file: Option<&File>) -> u32 {
        if let Some(order) = file.and_then(|file| any_order(random, file)) {
            if random.chance(1, 20) {
                return order.reference;
            }
        }
        self.next_reference = self.next_reference.checked_add(1).unwrap_or(1);
        self.next_reference
    }

    fn event(
        &mut self,
        random: &mut Random,
        today: u16,
        file: Option<&File>,
        make: fn(&mut Random, u16, &File, &Order) -> Event,
    ) -> Entry {
        let Some((file, order)) = file.and_then(|file| Some((file, any_order(random, file)?)))
        else {
            return Entry::event(1, Event::PermitRequired);
        };
        let reference = match random.below(40) {
            0 => self.reference(random, Some(file)),
            _ => order.reference,
        };
        let mut event = make(random, today, file, order);
        if let Event::Cancel { retailer } = &mut event {
            if random.chance(1, 12) {
                *retailer = random.pick(&self.retailers);
            }
        }
        Entry::event(reference, event)
    }

    /// An agreement is mostly established; the one there is, mostly, is deleted.
    fn agreement(&self, random: &mut Random, file: Option<&File>) -> Agreement {
        let retailer = random.pick(&self.retailers);
        let held = file.map_or(NO_AGREEMENT, |file| file.agreement);
        match random.below(6) {
            0 => Agreement::Delete { retailer },
            1 if held != NO_AGREEMENT => Agreement::Delete { retailer: held },
            2 if held != NO_AGREEMENT => Agreement::Establish { retailer: held },
            _ => Agreement::Establish { retailer },
        }
    }

    fn retailer_or_none(&self, random: &mut Random) -> u64 {
        match random.below(5) {
            0 => 0,
            _ => random.pick(&self.retailers),
        }
    }

    /// A record with one field out of range or used where it must be zero, or
    /// with a byte changed, or any bytes.
    fn malformed(&mut self, random: &mut Random, book: &Book) -> [u8; RECORD_BYTES] {
        let sort = random.pick(&[
            Sort::Create,
            Sort::Retire,
            Sort::NewOrder,
            Sort::AnyEvent,
            Sort::Agreement,
        ]);
        let record = match random.below(6) {
            0 => wrong_mark(random, book.today),
            _ => self.own_record(random, book, sort),
        };
        let mut bytes = record.to_bytes();
        match random.below(8) {
            0 => bytes[random.below(RECORD_BYTES)] ^= 1 << random.below(8),
            1 => bytes.fill_with(|| random.bits() as u8),
            _ => bytes = spoiled(random, Fields::from_bytes(&bytes)).to_bytes(),
        }
        bytes
    }
}

fn premise_numbers(random: &mut Random, count: usize) -> Vec<u64> {
    let wide = random.chance(1, 3);
    (0..count as u64)
        .map(|place| match place {
            0 if wide => u64::MAX,
            _ if wide => random.bits() | 1,
            _ => place + 1,
        })
        .collect()
}

/// Short numbers, numbers that end alike, or long ones.
fn retailer_numbers(random: &mut Random) -> Vec<u64> {
    let numbers = random.pick(&[
        [USUAL_RETAILER, 202, 303, LARGEST_RETAILER],
        [USUAL_RETAILER, ENDS_ALIKE, 303, LARGEST_RETAILER],
        [LARGEST_RETAILER, ENDS_LIKE_NONE, USUAL_RETAILER, ENDS_ALIKE],
    ]);
    numbers[..random.from_to(1, 4) as usize].to_vec()
}

fn any_order<'a>(random: &mut Random, file: &'a File) -> Option<&'a Order> {
    let held = file.held();
    let open: Vec<&Order> = held.iter().filter(|order| order.is_open()).collect();
    if let Some(order) = open.iter().find(|order| has_waited_longest(order)) {
        if random.chance(1, 3) {
            return Some(order);
        }
    }
    if !open.is_empty() && random.chance(9, 10) {
        return Some(random.pick(&open));
    }
    (!held.is_empty()).then(|| &held[random.below(held.len())])
}

/// A permit did not come. There are few days to reject the cancellation, and only so
/// does an order In Review have the longest wait.
fn has_waited_longest(order: &Order) -> bool {
    order.status == status::CANCEL_PENDING && order.waited == LONGEST_WAIT
}

/// A day a few days before or after another.
pub(super) fn day_near(random: &mut Random, day: u16) -> u16 {
    let near = i32::from(day) + random.from_to(-4, 8);
    near.clamp(0, i32::from(LAST_DAY)) as u16
}

/// A day at a limit of what a new order may ask for, or next to it.
fn day_at_limit(random: &mut Random, today: u16) -> u16 {
    let ahead = random.pick(&[
        DAYS_AHEAD - 1,
        DAYS_AHEAD,
        DAYS_AHEAD + 1,
        -DAYS_BACK + 1,
        -DAYS_BACK,
        -DAYS_BACK - 1,
    ]);
    (i32::from(today) + ahead).clamp(0, i32::from(LAST_DAY)) as u16
}

/// A day on which a held order is scheduled, if there is one.
fn scheduled_day_of_another(random: &mut Random, file: Option<&File>) -> Option<u16> {
    let days: Vec<u16> = file?
        .held()
        .iter()
        .map(|order| order.scheduled_day)
        .filter(|&day| day != NO_DAY)
        .collect();
    (!days.is_empty()).then(|| random.pick(&days))
}

fn requested_day(random: &mut Random, today: u16, file: Option<&File>) -> u16 {
    match random.below(12) {
        0..=1 => day_at_limit(random, today),
        2 => (i32::from(today) + random.from_to(20, 90)).clamp(0, i32::from(LAST_DAY)) as u16,
        3..=7 => scheduled_day_of_another(random, file).unwrap_or_else(|| day_near(random, today)),
        _ => day_near(random, today),
    }
}

/// A day to schedule for: often one that another order has, so that orders meet.
fn day_to_schedule(random: &mut Random, today: u16, file: &File, order: &Order) -> u16 {
    match random.below(10) {
        0 => random.below(usize::from(LAST_DAY) + 1) as u16,
        1..=6 if order.told == 1 => (today + random.from_to(10, 60) as u16).min(LAST_DAY),
        1..=2 => order.requested_day,
        3..=6 => {
            scheduled_day_of_another(random, Some(file)).unwrap_or_else(|| day_near(random, today))
        }
        _ => day_near(random, today),
    }
}

fn day_to_read(random: &mut Random, today: u16, file: &File, order: &Order) -> u16 {
    match random.below(6) {
        // both reads on one day
        0..=2 if file.moved_in == 1 && order.kind == kind::MOVE_OUT => file.since,
        0 => file.since.saturating_sub(1),
        1 => file.since,
        2 => order.requested_day,
        3 if order.scheduled_day != NO_DAY => order.scheduled_day,
        _ => day_near(random, today),
    }
}

/// An event that the order's status takes, if any does.
fn fitting_event(random: &mut Random, today: u16, file: &File, order: &Order) -> Event {
    let is_move = matches!(order.kind, kind::MOVE_IN | kind::MOVE_OUT);
    let is_far = order.scheduled_day > today.saturating_add(9);
    let number = match order.status {
        // a date that has moved moves again
        status::IN_REVIEW if order.counter > 0 => random.pick(&[4, 4, 4, 6, 8, 11, 11]),
        status::IN_REVIEW if order.kind == kind::MOVE_IN => {
            random.pick(&[4, 4, 4, 5, 5, 5, 6, 8, 11, 11])
        }
        status::IN_REVIEW if is_move => random.pick(&[4, 4, 4, 4, 4, 6, 8, 11, 11]),
        status::IN_REVIEW => random.pick(&[4, 4, 4, 4, 4, 6, 8]),
        status::PERMIT_PENDING => random.pick(&[4, 4, 6, 7, 7, 8]),
        status::SCHEDULED if order.kind == kind::MOVE_OUT && file.moved_in == 1 => {
            random.pick(&[6, 7, 7, 7, 7, 8, 11])
        }
        status::SCHEDULED if is_move && is_far => random.pick(&[6, 7, 8, 11, 11, 11]),
        status::SCHEDULED if is_move => random.pick(&[6, 7, 7, 8, 8, 8, 11]),
        status::SCHEDULED => random.pick(&[6, 7, 7, 8, 8]),
        status::CANCEL_PENDING if has_waited_longest(order) => random.pick(&[4, 9, 10, 10, 10]),
        // told, and then put off: only so is a told order out of window
        status::CANCEL_PENDING if is_move && order.told == 1 => random.pick(&[4, 4, 4, 9, 10]),
        status::CANCEL_PENDING => random.pick(&[4, 6, 9, 9, 10, 10, 10]),
        _ => random.pick(&[4, 5, 6, 7, 8, 9, 10, 11]),
    };
    event_number(number, random, today, file, order)
}

fn any_event(random: &mut Random, today: u16, file: &File, order: &Order) -> Event {
    let number = random.pick(&[4, 5, 6, 7, 8, 9, 10, 11]);
    event_number(number, random, today, file, order)
}

/// By record kind; a rejected cancel counts as 10.
fn event_number(number: u8, random: &mut Random, today: u16, file: &File, order: &Order) -> Event {
    match number {
        4 => Event::Scheduled {
            day: day_to_schedule(random, today, file, order),
        },
        5 => Event::PermitRequired,
        6 => Event::Unexecutable,
        7 => Event::MeterRead {
            day: day_to_read(random, today, file, order),
        },
        8 => Event::Cancel {
            retailer: order.retailer,
        },
        9 => Event::CancelAccepted,
        10 => Event::CancelRejected,
        _ => Event::DateChange {
            day: day_to_schedule(random, today, file, order),
            counter: next_counter(random, order),
        },
    }
}

/// Mostly one above the kept one, often the same again, sometimes a lower one.
fn next_counter(random: &mut Random, order: &Order) -> u32 {
    let kept = order.counter;
    let counter = match random.below(24) {
        0 => random.pick(&[u32::MAX - 1, u32::MAX]),
        1..=2 => kept.saturating_add(1_000),
        3..=8 => kept,
        9..=10 => random.pick(&[1, kept / 2, kept.saturating_sub(1)]),
        _ => kept.saturating_add(1),
    };
    counter.max(1)
}

fn wrong_mark(random: &mut Random, today: u16) -> Record {
    let day = random.pick(&[today, today.saturating_add(2), 0, LAST_DAY]);
    Record::DayMark {
        day: day.min(LAST_DAY),
    }
}

/// One field set to what hardly any kind of record takes there.
fn spoiled(random: &mut Random, mut fields: Fields) -> Fields {
    match random.below(7) {
        0 => fields.kind = random.pick(&[0, 13, 255]),
        1 => fields.detail = random.pick(&[0, 3, 6, 6, 255]),
        2 => fields.day = random.pick(&[NO_DAY, u16::MAX, 1]),
        3 => fields.reference = random.pick(&[0, 1]),
        4 => fields.premise = random.pick(&[0, 1]),
        5 => fields.retailer = random.pick(&[0, 1, LARGEST_RETAILER + 1, u64::MAX]),
        // the last four bytes, the others as they are
        _ => fields.retailer |= random.pick(&[1 << 32, 1 << 63]),
    }
    fields
}
