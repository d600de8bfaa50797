//! Thirteen-digit retailers (02, change 7): every record that names one, every
//! notice to one, and numbers that differ only beyond their low 32 bits, or only
//! in their suffix.

use super::*;
use kind::*;

pub fn calls() -> Vec<Stored> {
    [
        records(),
        unused(),
        counters(),
        addressees(),
        told_apart(),
        shares(),
        like_none(),
    ]
    .into_iter()
    .flatten()
    .collect()
}

const LARGEST: u64 = 9_999_999_999_999;

/// Two retailers whose numbers have the same low 32 bits.
const SMALL: u64 = 1;
const LIKE_SMALL: u64 = 4_294_967_297;

/// Two that share a nine-digit number, with different suffixes.
const LONG: u64 = 1_000_000_000_123;
const OTHER_SUFFIX: u64 = 1_000_000_000_124;

/// A retailer whose low 32 bits are zero.
const LIKE_NONE: u64 = 4_294_967_296;

/// The premise's file with R, C and these orders.
fn held(retailer: u64, agreement: u64, orders: &[Order]) -> [File; 1] {
    [File {
        retailer,
        agreement,
        ..file(orders)
    }]
}

/// Kinds 1, 3, 8 and 12.
fn records() -> Vec<Stored> {
    let none = [file(&[])];
    let created = |name, retailer| stored(name, &[], create(4, retailer));
    let ordered = |name, retailer| stored(name, &none, new_order_of(retailer, 1, MOVE_IN, 12));
    let cancelled = |name, retailer| {
        stored(
            name,
            &[file(&[by(LONG, in_review(1, MOVE_IN))])],
            cancel_by(retailer, 1),
        )
    };
    let agreed = |name, record| stored(name, &held(HOLDER, LONG, &[]), record);
    vec![
        created("a create for retailer 1,000,000,000", 1_000_000_000),
        created("a create for a retailer of 13 digits", LONG),
        created("a create for retailer 4,294,967,296", LIKE_NONE),
        created(
            "row 3: a create for retailer 10,000,000,000,000",
            LARGEST + 1,
        ),
        created("row 3: a create with the largest number", u64::MAX),
        created("row 3: a create with byte 23", HOLDER + (1 << 56)),
        ordered("an order of retailer 1,000,000,000", 1_000_000_000),
        ordered("an order of a retailer of 13 digits", LONG),
        ordered("an order of retailer 4,294,967,296", LIKE_NONE),
        ordered(
            "row 3: an order of retailer 10,000,000,000,000",
            LARGEST + 1,
        ),
        ordered("row 3: an order with byte 23", SUBMITTER + (1 << 56)),
        cancelled("a cancel by a retailer of 13 digits", LONG),
        cancelled("row 13: a cancel by retailer 1,000,000,000", 1_000_000_000),
        cancelled("row 3: a cancel by 10,000,000,000,000", LARGEST + 1),
        cancelled("row 3: a cancel with byte 23", LONG + (1 << 56)),
        agreed("an agreement with byte 20", establish(901 + (1 << 32))),
        agreed("a deletion by a retailer of 13 digits", delete(LONG)),
        agreed(
            "row 3: a deletion by 10,000,000,000,000",
            delete(LARGEST + 1),
        ),
    ]
}

/// Row 3: bytes 20 to 23 are the field's too, where a kind does not use it.
fn unused() -> Vec<Stored> {
    let review = [file(&[in_review(1, MOVE_IN)])];
    let pending = [file(&[cancel_pending(1, MOVE_IN, 20)])];
    let due = [file(&[told(scheduled(1, MOVE_IN, 20))])];
    let closed = [file(&[])];
    let with = |name, files: &[File], record: [u8; 24], place: usize| {
        let mut record = record;
        record[place] = 1;
        stored(name, files, record)
    };
    vec![
        with("row 3: a retire with byte 20", &closed, retire(), 20),
        with("row 3: a retire with byte 23", &closed, retire(), 23),
        with(
            "row 3: a scheduled with byte 21",
            &review,
            schedule(1, 12),
            21,
        ),
        with("row 3: a permit with byte 22", &review, permit(1), 22),
        with(
            "row 3: an unexecutable with byte 20",
            &review,
            unexecutable(1),
            20,
        ),
        with("row 3: a read with byte 23", &due, read(1, 12), 23),
        with("row 3: a reply with byte 20", &pending, accept(1), 20),
        with("row 3: a rejection with byte 22", &pending, reject(1), 22),
        with("row 3: a day mark with byte 20", &review, mark(11), 20),
        with("row 3: a day mark with byte 23", &review, mark(11), 23),
    ]
}

/// A date change's counter has four bytes.
fn counters() -> Vec<Stored> {
    let review = [file(&[in_review(1, MOVE_IN)])];
    let with = |name, counter: u64| {
        let mut record = date_change(1, 25, 1);
        record[16..].copy_from_slice(&counter.to_le_bytes());
        stored(name, &review, record)
    };
    vec![
        with("row 3: a date change with 4,294,967,296", 4_294_967_296),
        with("row 3: a date change with 4,294,967,297", 4_294_967_297),
        with("row 3: a date change with byte 21", 6 + (1 << 40)),
        with("row 3: a date change with byte 22", 6 + (1 << 48)),
        with("row 3: a date change with the largest number", u64::MAX),
    ]
}

/// Every notice to a retailer, and what its number is taken from.
fn addressees() -> Vec<Stored> {
    let of_long = |order| held(LARGEST, OTHER_SUFFIX, &[by(LONG, order)]);
    vec![
        stored(
            "notices 3 and 4 to retailers of 13 digits",
            &of_long(in_review(1, STANDARD_SWITCH)),
            schedule(1, 12),
        ),
        stored(
            "notices 3 and 12 to retailers of 13 digits",
            &of_long(in_review(1, MOVE_OUT)),
            schedule(1, 12),
        ),
        stored(
            "notice 6 to a retailer of 13 digits",
            &of_long(in_review(1, MOVE_IN)),
            permit(1),
        ),
        stored(
            "notices 7 to retailers of 13 digits",
            &of_long(told(scheduled(1, MOVE_IN, 20))),
            unexecutable(1),
        ),
        stored(
            "notices 7 on a move out to retailers of 13 digits",
            &of_long(told(scheduled(1, MOVE_OUT, 20))),
            unexecutable(1),
        ),
        stored(
            "notice 5 to a retailer of 13 digits, accepted",
            &of_long(cancel_pending(1, MOVE_IN, 20)),
            accept(1),
        ),
        stored(
            "notice 8 to a retailer of 13 digits",
            &of_long(cancel_pending(1, MOVE_IN, 20)),
            reject(1),
        ),
        stored(
            "notice 9 to a retailer of 13 digits",
            &of_long(told(scheduled(1, MOVE_IN, 20))),
            date_change(1, 25, 1),
        ),
        stored(
            "notices 10 and 11 to retailers of 13 digits",
            &of_long(in_review(1, MOVE_IN)),
            establish(LARGEST),
        ),
        stored(
            "notice 5 to a retailer of 13 digits, by the clock",
            &of_long(pending_for(6, cancel_pending(1, MOVE_IN, NO_DAY))),
            mark(11),
        ),
        stored(
            "notices 5 to retailers of 13 digits, by passes 1 and 3",
            &held(
                HOLDER,
                0,
                &[
                    told(scheduled(1, STANDARD_SWITCH, 12)),
                    by(LONG, told(scheduled(2, SELF_SELECTED_SWITCH, 12))),
                    by(LARGEST, requested(9, permit_pending(3))),
                    requested(10, told(scheduled(4, MOVE_IN, 11))),
                ],
            ),
            mark(11),
        ),
        stored(
            "notice 5 to a retailer of 13 digits, by pass 2",
            &held(
                LARGEST,
                0,
                &[
                    told(scheduled(1, STANDARD_SWITCH, 12)),
                    told(scheduled(2, MASS_TRANSITION_DROP, 12)),
                ],
            ),
            mark(11),
        ),
        stored(
            "a read for a retailer of 13 digits",
            &of_long(told(scheduled(1, MOVE_IN, 9))),
            read(1, 9),
        ),
        stored(
            "a move out's read for an agreement of 13 digits",
            &of_long(told(scheduled(1, MOVE_OUT, 9))),
            read(1, 9),
        ),
    ]
}

/// Rows 13 and 18, pass 4 and notice 10 compare whole numbers.
fn told_apart() -> Vec<Stored> {
    let cancelled = |name, submitter, canceller| {
        stored(
            name,
            &[file(&[by(submitter, in_review(1, MOVE_IN))])],
            cancel_by(canceller, 1),
        )
    };
    let told_of = |name, retailer, submitter| {
        stored(
            name,
            &held(retailer, 0, &[by(submitter, in_review(1, MOVE_IN))]),
            schedule(1, 12),
        )
    };
    let agreed = |name, agreement, record| stored(name, &held(HOLDER, agreement, &[]), record);
    vec![
        cancelled(
            "row 13: a cancel by a retailer with Q's low 32 bits",
            SMALL,
            LIKE_SMALL,
        ),
        cancelled(
            "row 13: a cancel by a retailer with a longer Q's low 32 bits",
            LIKE_SMALL,
            SMALL,
        ),
        cancelled(
            "row 13: a cancel by a retailer with another suffix",
            LONG,
            OTHER_SUFFIX,
        ),
        told_of("R with Q's low 32 bits is told", SMALL, LIKE_SMALL),
        told_of("R with another suffix than Q is told", LONG, OTHER_SUFFIX),
        told_of("R of 13 digits is Q and is not told", LONG, LONG),
        agreed(
            "row 18: a retailer with C's low 32 bits",
            SMALL,
            delete(LIKE_SMALL),
        ),
        agreed(
            "row 18: a retailer with another suffix than C",
            LONG,
            delete(OTHER_SUFFIX),
        ),
        agreed(
            "an agreement in the place of one with its low 32 bits",
            SMALL,
            establish(LIKE_SMALL),
        ),
        agreed(
            "an agreement in the place of one with another suffix",
            LONG,
            establish(OTHER_SUFFIX),
        ),
        agreed(
            "the same agreement of 13 digits again",
            LONG,
            establish(LONG),
        ),
    ]
}

/// Row 26 counts by whole numbers.
fn shares() -> Vec<Stored> {
    let four_of = |retailer| {
        let orders: Vec<Order> = (1..=4)
            .map(|reference| by(retailer, in_review(reference, MOVE_OUT)))
            .collect();
        [file(&orders)]
    };
    let asked = |name, holder, retailer| {
        stored(
            name,
            &four_of(holder),
            new_order_of(retailer, 9, MOVE_IN, 13),
        )
    };
    vec![
        asked(
            "no row 26 by orders of a retailer with Q's low 32 bits",
            SMALL,
            LIKE_SMALL,
        ),
        asked(
            "no row 26 by orders of a retailer with another suffix",
            LONG,
            OTHER_SUFFIX,
        ),
        asked("row 26: a retailer of 13 digits", LONG, LONG),
    ]
}

/// A retailer whose low 32 bits are zero is a retailer, as R and as C.
fn like_none() -> Vec<Stored> {
    let into = told(scheduled(1, MOVE_IN, 20));
    let out = told(scheduled(1, MOVE_OUT, 20));
    let as_holder = |orders: &[Order]| held(LIKE_NONE, 0, orders);
    let as_agreed = |orders: &[Order]| held(0, LIKE_NONE, orders);
    vec![
        stored(
            "R 4,294,967,296 is told",
            &as_holder(&[in_review(1, MOVE_IN)]),
            schedule(1, 12),
        ),
        stored(
            "R 4,294,967,296 hears of a dropped drop",
            &as_holder(&[
                told(scheduled(1, STANDARD_SWITCH, 12)),
                told(scheduled(2, MASS_TRANSITION_DROP, 12)),
            ]),
            mark(11),
        ),
        stored(
            "R 4,294,967,296 hears of a failure",
            &as_holder(&[into]),
            unexecutable(1),
        ),
        stored(
            "R 4,294,967,296 hears of a new date",
            &as_holder(&[into]),
            date_change(1, 25, 1),
        ),
        stored(
            "C 4,294,967,296 is told of a move out",
            &as_agreed(&[in_review(1, MOVE_OUT)]),
            schedule(1, 12),
        ),
        stored(
            "C 4,294,967,296 hears of a failure",
            &as_agreed(&[out]),
            unexecutable(1),
        ),
        stored(
            "C 4,294,967,296 is replaced",
            &as_agreed(&[]),
            establish(LANDLORDS),
        ),
        stored(
            "C 4,294,967,296 gets the flat",
            &as_agreed(&[told(scheduled(1, MOVE_OUT, 9))]),
            read(1, 9),
        ),
    ]
}
