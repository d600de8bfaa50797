//! Document 02, change 13: every order comes to one end. Every order of random
//! lists of calls is followed from its acceptance until it is dropped or its
//! premise retired, and both sentences are tried after every call, calls with
//! short buffers among them.

use crate::support::*;
use stacking::answer::Answer;
use stacking::book::{record_call, Book};
use stacking::days::{is_business_day, BusinessDays, CalendarDays, LAST_DAY};
use stacking::file::File;
use stacking::notice::NOTICE_BUFFER_BYTES;
use stacking::order::{status, Order};
use stacking::random::Random;
use stacking::record::{decode, Fields, RECORD_BYTES};
use stacking::sample::{self, TapeOptions};
use std::collections::{HashMap, HashSet};

/// An order's premise and reference.
type Name = (u64, u32);

/// An order in review, the day on which it was seen so, and the day of the mark
/// that turns it.
#[derive(Clone, Copy)]
struct Wait {
    today: u16,
    order: Order,
    turning: Option<u16>,
}

/// N, once counted on from a day to a later one.
fn counted_to(calendar: &[u8], today: u16, order: &Order, day: u16) -> u8 {
    let days = (today + 1..=day).filter(|&day| is_business_day(calendar, day));
    (usize::from(order.waited.0) + days.count()).min(21) as u8
}

/// The first later day at which N, once counted on, is at least 20, or is at
/// least 3 with T at least RD.
fn turning_day(calendar: &[u8], today: u16, order: &Order) -> Option<u16> {
    let mut waited = order.waited.0;
    for day in today + 1..=LAST_DAY {
        waited = (waited + u8::from(is_business_day(calendar, day))).min(21);
        if waited >= 20 || waited >= 3 && day >= order.requested_day {
            return Some(day);
        }
    }
    None
}

impl Wait {
    fn new(calendar: &[u8], today: u16, order: Order) -> Wait {
        let turning = turning_day(calendar, today, &order);
        Wait {
            today,
            order,
            turning,
        }
    }

    /// What the order is on a later day, if no record names it.
    fn on(&self, calendar: &[u8], day: u16) -> Order {
        let end = self.turning.map_or(day, |turning| turning.min(day));
        let waited = counted_to(calendar, self.today, &self.order, end);
        let (status, pending) = match self.turning {
            Some(turning) if day >= turning + 7 => (status::CANCELLED, 0),
            Some(turning) if day >= turning => (status::CANCEL_PENDING, day - turning),
            _ => (status::IN_REVIEW, 0),
        };
        Order {
            waited: BusinessDays(waited),
            status,
            cancel_pending_for: CalendarDays(pending as u8),
            ..self.order
        }
    }
}

/// How often what the sentences speak of was met.
#[derive(Debug, Default)]
struct Met {
    orders: usize,
    dropped: usize,
    retired: usize,
    used_anew: usize,
    ended: [usize; 3],
    turned_at_20: usize,
    turned_at_3: usize,
    cancelled_at_the_seventh: usize,
    named_and_refused: usize,
    came_back_to_review: usize,
    short_buffers: usize,
}

/// Follows every order of one list of calls.
struct Follower<'a> {
    calendar: &'a [u8],
    waits: HashMap<Name, Wait>,
    seen: HashSet<Name>,
    met: &'a mut Met,
}

fn orders_of(book: &Book) -> HashMap<Name, Order> {
    let of_file = |file: &File| -> Vec<(Name, Order)> {
        let named = |order: &Order| ((file.premise, order.reference), *order);
        file.held().iter().map(named).collect()
    };
    book.held().iter().flat_map(of_file).collect()
}

impl Follower<'_> {
    /// One call that was made: the books before and after it.
    fn call(&mut self, before: &Book, record: &[u8], answer: Answer, after: &Book) {
        let accepted = answer == Answer::Accepted;
        let said = decode(record).map(|_| Fields::from_bytes(record.try_into().unwrap()));
        let (old, new) = (orders_of(before), orders_of(after));
        for (name, order) in &old {
            match new.get(name) {
                None => self.gone(before, *name, order, accepted, said),
                Some(now) if !order.is_open() => assert_eq!(now, order, "{name:?}"),
                Some(_) => {}
            }
        }
        let mut names: Vec<_> = new.into_iter().collect();
        names.sort_by_key(|&(name, _)| name);
        for (name, order) in names {
            let named = said.is_some_and(|fields| (fields.premise, fields.reference) == name);
            match old.get(&name) {
                None => self.came(name, &order, accepted, said),
                Some(was) => self.stayed(name, was, &order, named && accepted, after.today),
            }
            if named && !accepted && self.waits.contains_key(&name) {
                self.met.named_and_refused += 1;
            }
            let marked = before.today != after.today;
            if order.status == status::IN_REVIEW && (marked || !self.waits.contains_key(&name)) {
                self.waits_on(name, order, after.today);
            }
        }
    }

    /// An order is gone: a retire, or a new order with eight held of which it was
    /// the oldest closed one.
    fn gone(
        &mut self,
        before: &Book,
        name: Name,
        order: &Order,
        accepted: bool,
        said: Option<Fields>,
    ) {
        let fields = said.expect("only a record takes an order away");
        assert!(accepted && !order.is_open() && fields.premise == name.0);
        let file = &before.files[before.place_of(name.0).unwrap()];
        let oldest = file.held().iter().find(|order| !order.is_open());
        match fields.kind {
            2 => self.met.retired += 1,
            3 => {
                assert_eq!((file.held().len(), oldest), (8, Some(order)));
                self.met.dropped += 1;
            }
            kind => panic!("kind {kind} took an order away"),
        }
        self.met.ended[usize::from(order.status - status::COMPLETE)] += 1;
        self.waits.remove(&name);
    }

    /// An order is there that was not: an accepted new order with its reference.
    fn came(&mut self, name: Name, order: &Order, accepted: bool, said: Option<Fields>) {
        let fields = said.expect("only a record brings an order");
        assert!(accepted && fields.kind == 3);
        assert_eq!((fields.premise, fields.reference), name);
        assert_eq!(order.status, status::IN_REVIEW);
        self.met.orders += 1;
        self.met.used_anew += usize::from(!self.seen.insert(name));
    }

    /// An order that was there: as its wait says, unless an accepted record names
    /// it, which ends the wait.
    fn stayed(&mut self, name: Name, was: &Order, now: &Order, named: bool, today: u16) {
        if named {
            self.waits.remove(&name);
            let back = now.status == status::IN_REVIEW && was.status != status::IN_REVIEW;
            self.met.came_back_to_review += usize::from(back);
            return;
        }
        let Some(wait) = self.waits.get(&name) else {
            return;
        };
        assert_eq!(*now, wait.on(self.calendar, today), "{name:?} on {today}");
        if was.status == now.status {
            return;
        }
        match now.status {
            status::CANCEL_PENDING if now.waited.0 >= 20 => self.met.turned_at_20 += 1,
            status::CANCEL_PENDING => self.met.turned_at_3 += 1,
            _ => self.met.cancelled_at_the_seventh += 1,
        }
    }

    /// The record; or, now and then, a new order with the reference of one that is
    /// gone from its premise.
    fn anew(&self, random: &mut Random, book: &Book, record: &[u8]) -> Vec<u8> {
        let mut bytes = record.to_vec();
        if decode(record).is_none() || record[0] != 3 || !random.chance(1, 4) {
            return bytes;
        }
        let mut fields = Fields::from_bytes(record.try_into().unwrap());
        let held = orders_of(book);
        let is_gone = |name: &&Name| name.0 == fields.premise && !held.contains_key(name);
        let mut gone: Vec<_> = self.seen.iter().filter(is_gone).collect();
        gone.sort();
        if !gone.is_empty() {
            fields.reference = random.pick(&gone).1;
            bytes.copy_from_slice(&fields.to_bytes());
        }
        bytes
    }

    /// An order in review: its wait begins; or, after a mark, the one that has begun
    /// goes on to the same day.
    fn waits_on(&mut self, name: Name, order: Order, today: u16) {
        let wait = Wait::new(self.calendar, today, order);
        let begun = *self.waits.entry(name).or_insert(wait);
        assert_eq!(begun.turning, wait.turning, "{name:?} on {today}");
    }
}

#[test]
fn every_order_of_random_calls_comes_to_one_end() {
    let mut met = Met::default();
    for seed in 0..60 {
        let mut random = Random::new(seed);
        let calendar = sample::calendar(&mut random);
        let options = TapeOptions {
            records: 500,
            premises: Some(random.pick(&[1, 2, 4])),
            never_full: false,
        };
        let tape = sample::tape(&mut random, &calendar, &options);
        follow(&mut random, &calendar, &tape, &mut met);
    }
    println!("{met:?}");
    for times in [
        met.orders,
        met.dropped,
        met.retired,
        met.used_anew,
        met.ended[0],
        met.ended[1],
        met.ended[2],
        met.turned_at_20,
        met.turned_at_3,
        met.cancelled_at_the_seventh,
        met.named_and_refused,
        met.came_back_to_review,
        met.short_buffers,
    ] {
        assert!(times > 20, "{met:?}");
    }
}

/// Plays a tape from a fresh book. Now and then a reference is used anew, and a
/// record comes first with a buffer that is a byte too short.
fn follow(random: &mut Random, calendar: &[u8], tape: &[u8], met: &mut Met) {
    let mut book = Book::fresh(0);
    let mut long = buffer();
    let mut follower = Follower {
        calendar,
        waits: HashMap::new(),
        seen: HashSet::new(),
        met,
    };
    for record in tape.chunks(RECORD_BYTES) {
        let record = &follower.anew(random, &book, record)[..];
        let mut short = random.chance(1, 4);
        loop {
            let lent = NOTICE_BUFFER_BYTES - usize::from(short);
            let before = book.clone();
            let (answer, _) = record_call(&mut book, calendar, record, &mut long[..lent]);
            follower.call(&before, record, answer, &book);
            if !short {
                break;
            }
            assert_eq!((answer, &book), (Answer::BufferTooShort, &before));
            follower.met.short_buffers += 1;
            short = false;
        }
    }
}

/// Set piece f with refused records that name the order strewn in.
#[test]
fn an_order_that_is_named_by_refused_records_hangs_to_its_day() {
    let mut desk = Desk::new(50);
    desk.take(&[new_order(1, 50, 1)]);
    let wait = Wait::new(&desk.calendar, 50, *desk.order(1));
    assert_eq!(wait.turning, Some(52));
    for day in 51..=59 {
        for entry in [read(1, 50), cancel_by(ANOTHER, 1), new_order(1, 52, 1)] {
            assert_ne!(desk.send(entry), 0);
        }
        desk.mark_to(day);
        assert_eq!(*desk.order(1), wait.on(&desk.calendar, day), "{day}");
    }
    assert_eq!(desk.status(1), status::CANCELLED);
}

/// "After that its reference may be used anew."
#[test]
fn a_reference_is_complete_and_then_unexecutable() {
    let mut desk = Desk::new(10);
    let drop_of = |retailer, reference| new_order_of(retailer, 5, 5, reference);
    desk.take(&[drop_of(202, 1), scheduled(1, 5), read(1, 5)]);
    assert_eq!(desk.status(1), status::COMPLETE);
    for reference in 2..=9 {
        desk.take(&[drop_of(203 + u64::from(reference) / 4, reference)]);
    }
    assert!(desk.file().place_of(1).is_none());
    desk.take(&[unexecutable(2), drop_of(202, 1), unexecutable(1)]);
    assert_eq!(desk.status(1), status::UNEXECUTABLE);
}
