//! Random books: well-kept ones that no tape reaches, and damaged ones.

use super::record::day_near;
use super::{ENDS_ALIKE, ENDS_LIKE_NONE, USUAL_RETAILER};
use crate::book::{Book, FILES_A_BOOK};
use crate::clock::{CANCEL_PENDING_WAIT, LONGEST_WAIT};
use crate::days::{BusinessDays, CalendarDays, LAST_DAY, NO_DAY};
use crate::file::{File, ORDERS_A_FILE};
use crate::order::{kind, status, Order, LARGEST_RETAILER};
use crate::random::Random;
use crate::waiting::Waiting;

/// A well-kept book with any orders in any status. Days lie close to today, so
/// that orders meet, and waits close to their ends. Now and then all orders are in
/// one status, so that a full book has a total that takes its second byte.
pub fn well_kept_book(random: &mut Random) -> Book {
    let today = match random.below(4) {
        0 => random.below(usize::from(LAST_DAY) + 1) as u16,
        1 => LAST_DAY - random.below(12) as u16,
        _ => random.below(60) as u16,
    };
    let mut book = Book::fresh(today);
    let count = random.pick(&[0, 1, 1, 1, 2, 3, 10, 63, FILES_A_BOOK]);
    book.file_count = count as u8;
    let books_status = random.chance(1, 8).then(|| random.from_to(1, 7) as u8);
    let mut premise = 0;
    for file in &mut book.files[..count] {
        premise += 1 + random.bits() % random.pick(&[1, 3, u64::MAX / 65]);
        let one_status = books_status.or_else(|| {
            let is_alike = random.chance(1, 4);
            is_alike.then(|| random.from_to(1, 7) as u8)
        });
        *file = well_kept_file(random, today, premise, one_status);
    }
    book.waiting = book.counted();
    book
}

/// Its orders are all in one status, or in any.
fn well_kept_file(random: &mut Random, today: u16, premise: u64, one_status: Option<u8>) -> File {
    let retailer = random.pick(&[
        0,
        USUAL_RETAILER,
        202,
        ENDS_ALIKE,
        ENDS_LIKE_NONE,
        LARGEST_RETAILER,
    ]);
    let mut file = File::new(premise, retailer, some_day(random, today));
    file.window = BusinessDays(random.pick(&[1, 2, 2, 3, 4, 5]));
    file.agreement = random.pick(&[
        0,
        0,
        0,
        USUAL_RETAILER,
        404,
        ENDS_ALIKE,
        ENDS_LIKE_NONE,
        LARGEST_RETAILER,
    ]);
    file.moved_in = random.below(2) as u8;
    file.order_count = random.pick(&[0, 1, 2, 3, 5, 7, 8, 8]);
    let first_reference = random.pick(&[1, 5, u32::MAX - ORDERS_A_FILE as u32]);
    // now and then one retailer has more than its share, as no tape leads to
    let one_retailer = random.chance(1, 6).then(|| order_retailer(random));
    for (place, order) in file.held_mut().iter_mut().enumerate() {
        let status = one_status.unwrap_or_else(|| random.pick(&[1, 2, 3, 3, 3, 4, 4, 5, 6, 7]));
        *order = well_kept_order(random, today, status);
        order.reference = first_reference + place as u32;
        order.retailer = one_retailer.unwrap_or_else(|| order_retailer(random));
    }
    file
}

/// Its reference and its retailer are the file's to say.
fn well_kept_order(random: &mut Random, today: u16, status: u8) -> Order {
    let kind = match status {
        status::PERMIT_PENDING => kind::MOVE_IN,
        _ => random.from_to(1, 5) as u8,
    };
    let day = some_day(random, today);
    Order {
        reference: 0,
        retailer: 0,
        requested_day: some_day(random, today),
        scheduled_day: match status {
            status::IN_REVIEW | status::PERMIT_PENDING => NO_DAY,
            status::SCHEDULED | status::COMPLETE => day,
            _ => random.pick(&[day, day, NO_DAY]),
        },
        kind,
        status,
        waited: BusinessDays(random.pick(&[0, 1, 2, 3, 18, 19, 20, LONGEST_WAIT.0])),
        cancel_pending_for: CalendarDays(match status {
            status::CANCEL_PENDING => random.below(usize::from(CANCEL_PENDING_WAIT.0)) as u8,
            _ => 0,
        }),
        told: random.below(2) as u8,
        counter: random.pick(&[0, 0, 1, 5, u32::MAX - 1, u32::MAX]),
    }
}

fn order_retailer(random: &mut Random) -> u64 {
    random.pick(&[USUAL_RETAILER, 202, 303, ENDS_ALIKE, LARGEST_RETAILER])
}

fn some_day(random: &mut Random, today: u16) -> u16 {
    match random.below(16) {
        0 => random.below(usize::from(LAST_DAY) + 1) as u16,
        _ => day_near(random, today),
    }
}

/// Sets a field, of the book or of any place in it, to a number at or beyond its
/// limits; sometimes several. Most books are then no longer well kept. The totals
/// mostly follow what became of the orders, so that it is not they that tell.
pub fn damage(random: &mut Random, book: &mut Book) {
    let mut totals_follow = random.chance(3, 4);
    for _ in 0..random.pick(&[1, 1, 1, 3]) {
        let file = place_to_damage(random, book.file_count, FILES_A_BOOK);
        match random.below(15) {
            0 => book.today = odd_day(random),
            1 => book.file_count = random.pick(&[0, 1, 63, 64, 65, 255]),
            2..=3 => damage_file(random, &mut book.files[file]),
            4 => swap_files(random, book, file),
            5..=7 => {
                book.waiting = Waiting::new(odd_totals(random, book));
                totals_follow = false;
            }
            _ => {
                let file = &mut book.files[file];
                let order = place_to_damage(random, file.order_count, ORDERS_A_FILE);
                damage_order(random, &mut file.orders[order]);
            }
        }
    }
    if totals_follow {
        book.waiting = book.counted();
    }
}

/// One of the four off by one, that of a closed status or any number, or all four
/// in another order.
fn odd_totals(random: &mut Random, book: &Book) -> [u16; 4] {
    let mut totals = book.waiting.each();
    let place = random.below(4);
    match random.below(6) {
        0 => totals[place] = totals[place].wrapping_add(1),
        1 => totals[place] = totals[place].wrapping_sub(1),
        2 => {
            let closed = random.from_to(5, 7) as u8;
            totals[place] = orders_in(book, closed);
        }
        3 => totals[place] = random.pick(&[0, 1, 255, 256, 512, 513, u16::MAX]),
        4 => totals[place] ^= 1 << random.from_to(8, 15),
        _ => random.shuffle(&mut totals),
    }
    totals
}

/// How many orders of the book are in a status, as far as its counts say.
fn orders_in(book: &Book, status: u8) -> u16 {
    let files = book.files.iter().take(usize::from(book.file_count));
    let orders = files.flat_map(|file| file.orders.iter().take(usize::from(file.order_count)));
    orders.filter(|order| order.status == status).count() as u16
}

/// Mostly a used place, sometimes any.
fn place_to_damage(random: &mut Random, used: u8, places: usize) -> usize {
    match usize::from(used).min(places) {
        used if used > 0 && random.chance(4, 5) => random.below(used),
        _ => random.below(places),
    }
}

fn damage_file(random: &mut Random, file: &mut File) {
    match random.below(7) {
        0 => file.premise = random.pick(&[0, 1, 2, u64::MAX]),
        1 => file.retailer = odd_retailer(random),
        2 => file.since = odd_day(random),
        3 => file.agreement = odd_retailer(random),
        4 => file.moved_in = random.pick(&[0, 1, 2, 255]),
        5 => file.window.0 = random.pick(&[0, 1, 5, 6, 255]),
        _ => file.order_count = random.pick(&[0, 1, 7, 8, 9, 255]),
    }
}

fn swap_files(random: &mut Random, book: &mut Book, file: usize) {
    let other = random.below(FILES_A_BOOK);
    book.files.swap(file, other);
}

fn damage_order(random: &mut Random, order: &mut Order) {
    match random.below(10) {
        0 => order.reference = random.pick(&[0, 1, 2, u32::MAX]),
        1 => order.retailer = odd_retailer(random),
        2 => order.requested_day = odd_day(random),
        3 => order.scheduled_day = odd_day(random),
        4 => order.kind = random.pick(&[0, 1, 2, 5, 6, 255]),
        5 => order.status = random.pick(&[0, 1, 2, 3, 4, 5, 6, 7, 8, 255]),
        6 => order.waited.0 = random.pick(&[0, 21, 22, 255]),
        7 => order.cancel_pending_for.0 = random.pick(&[1, 6, 7, 7, 255]),
        8 => order.told = random.pick(&[0, 1, 2, 255]),
        _ => order.counter = random.pick(&[0, 1, u32::MAX]),
    }
}

fn odd_day(random: &mut Random) -> u16 {
    random.pick(&[0, LAST_DAY, NO_DAY, NO_DAY + 1, u16::MAX])
}

fn odd_retailer(random: &mut Random) -> u64 {
    random.pick(&[
        0,
        1,
        1_000_000_000,
        ENDS_LIKE_NONE,
        LARGEST_RETAILER,
        LARGEST_RETAILER + 1,
        USUAL_RETAILER + (1 << 63),
        u64::MAX,
    ])
}
