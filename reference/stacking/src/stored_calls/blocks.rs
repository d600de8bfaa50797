//! Many records in one call (document 02, change 5), sentence by sentence. Each
//! name begins with how many records are played and how many whole ones the
//! stretch has, or with 19.

use super::*;
use crate::waiting::Waiting;
use kind::*;

type Block = Stored<BlockCall>;

/// With fewer notice bytes free no record is played.
const LEAST: usize = NOTICE_BUFFER_BYTES;

/// The notice bytes of calls that are not about their number: more than are needed.
const ROOM: usize = 2 * LEAST;

/// The most that the proved program takes.
const MOST_ROOM: usize = 131_072;
const LONGEST_STRETCH: usize = 65_520;

pub fn calls() -> Vec<Block> {
    [
        whole_records(),
        one_behind_the_other(),
        files_come_and_go(),
        refused_records(),
        room(),
        most_notices(),
        short_rests(),
        long_stretches(),
        damaged_books(),
        answer_buffers(),
        too_few_answer_bytes(),
        totals(),
    ]
    .into_iter()
    .flatten()
    .collect()
}

/// A call on these files, on day 10, with an answer byte for each record.
fn block(name: &'static str, files: &[File], records: &[[u8; 24]]) -> Block {
    block_on(name, book(TODAY, files), records)
}

fn block_on(name: &'static str, book: Book, records: &[[u8; 24]]) -> Block {
    Stored {
        name,
        call: BlockCall {
            book,
            calendar: business_days(),
            stretch: records.concat(),
            answers_length: records.len(),
            notices_length: ROOM,
        },
    }
}

impl Block {
    fn with_notice_bytes(mut self, bytes: usize) -> Block {
        self.call.notices_length = bytes;
        self
    }

    fn with_answer_bytes(mut self, bytes: usize) -> Block {
        self.call.answers_length = bytes;
        self
    }

    fn with_days(mut self, calendar: Vec<u8>) -> Block {
        self.call.calendar = calendar;
        self
    }

    /// The stretch goes on with these bytes, for which there is no answer byte.
    fn with_rest(mut self, rest: &[u8]) -> Block {
        self.call.stretch.extend(rest);
        self
    }
}

/// A record for another premise.
fn of(premise: u64, mut record: [u8; 24]) -> [u8; 24] {
    record[8..16].copy_from_slice(&premise.to_le_bytes());
    record
}

/// A move out of the submitter's: one notice.
fn order_of(reference: u32) -> [u8; 24] {
    new_order_of(SUBMITTER, reference, MOVE_OUT, 20)
}

/// Up to eight such orders: four are one retailer's share.
fn orders(count: u32) -> Vec<[u8; 24]> {
    let order = |reference| match reference {
        1..=4 => order_of(reference),
        _ => new_order_of(ANOTHER, reference, MOVE_OUT, 20),
    };
    (1..=count).map(order).collect()
}

/// No record has kind 13.
fn malformed() -> [u8; 24] {
    let mut record = mark(11);
    record[0] = 13;
    record
}

/// "One call takes a stretch of tape and plays whole records from its start".
fn whole_records() -> Vec<Block> {
    let switch = [
        create(3, HOLDER),
        new_order(1, STANDARD_SWITCH, 0),
        schedule(1, 10),
        read(1, 10),
    ];
    vec![
        block("0 of 0: no byte, no room, no answer byte", &[], &[]).with_notice_bytes(0),
        block("0 of 0: no byte with room", &[file(&[])], &[]),
        block("1 of 1: a record", &[file(&[])], &[order_of(1)]),
        block("4 of 4: a file, a switch, its day, its read", &[], &switch),
        block(
            "2 of 2: in their order",
            &[file(&[])],
            &[order_of(1), schedule(1, 20)],
        ),
        block(
            "2 of 2: in their order, the other way round",
            &[file(&[])],
            &[schedule(1, 20), order_of(1)],
        ),
        block(
            "3 of 3: one record three times",
            &[file(&[])],
            &[order_of(1); 3],
        ),
        block(
            "3 of 3: each on the day that the mark before it set",
            &[file(&[])],
            &[
                new_order(1, MOVE_IN, 101),
                mark(11),
                new_order(2, MOVE_IN, 101),
            ],
        ),
        block(
            "3 of 3: a calendar of no business day",
            &[file(&[in_review(1, MOVE_IN)])],
            &[new_order(2, STANDARD_SWITCH, 0), mark(11), mark(12)],
        )
        .with_days(vec![]),
    ]
}

/// "each into the notice bytes still free".
fn one_behind_the_other() -> Vec<Block> {
    let ends = waited(19, in_review(1, MOVE_IN));
    let told_once = [file(&[scheduled(1, SELF_SELECTED_SWITCH, 13)])];
    vec![
        block(
            "3 of 3: a notice each",
            &[file(&[])],
            &[order_of(1), order_of(2), order_of(3)],
        ),
        block(
            "4 of 4: no notice, two, none, none",
            &[agreed_file(&[scheduled(1, MOVE_OUT, 8)])],
            &[read(1, 10), establish(ANOTHER), retire(), create(3, 0)],
        ),
        block(
            "3 of 3: a mark's notices behind another record's and before another's",
            &[file(&[ends])],
            &[order_of(2), mark(11), order_of(3)],
        ),
        block(
            "3 of 3: two marks' notices one behind the other",
            &[
                file(&[ends]),
                File {
                    premise: 8,
                    ..file(&[waited(18, in_review(1, MOVE_IN))])
                },
            ],
            &[mark(11), mark(12), of(8, order_of(2))],
        ),
        block(
            "3 of 3: an evaluation's notices behind its record's",
            &told_once,
            &[order_of(2), mark(11), schedule(2, 12)],
        ),
        block(
            "4 of 4: records without a notice between two with one",
            &[file(&[])],
            &[order_of(1), of(9, create(3, 0)), mark(11), order_of(2)],
        ),
    ]
}

/// Creates and retires within the stretch; what comes after them finds its file.
fn files_come_and_go() -> Vec<Block> {
    let flat = |premise, orders: &[Order]| File {
        premise,
        ..file(orders)
    };
    let open = |reference| in_review(reference, MOVE_OUT);
    let two = [flat(20, &[open(1)]), flat(40, &[open(2)])];
    let full: Vec<File> = (1..=64).map(|place| File::new(place * 10, 0, 0)).collect();
    vec![
        block(
            "6 of 6: a create before, between and behind the others, an order for each",
            &two,
            &[
                of(30, create(3, 0)),
                of(30, order_of(3)),
                of(10, create(3, HOLDER)),
                of(10, order_of(4)),
                of(50, create(3, ANOTHER)),
                of(50, order_of(5)),
            ],
        ),
        block(
            "4 of 4: behind a create the files that stood after it",
            &two,
            &[
                of(10, create(3, 0)),
                of(40, schedule(2, 12)),
                of(20, schedule(1, 12)),
                of(10, order_of(1)),
            ],
        ),
        block(
            "4 of 4: behind a retire the files that stood after it, and none in its place",
            &[flat(10, &[]), two[0], two[1]],
            &[
                of(10, retire()),
                of(40, schedule(2, 12)),
                of(10, order_of(1)),
                of(20, schedule(1, 12)),
            ],
        ),
        block(
            "5 of 5: a premise retired and created anew",
            &[flat(20, &[cancelled(1, MOVE_IN)]), two[1]],
            &[
                of(20, order_of(2)),
                of(20, retire()),
                of(20, unexecutable(2)),
                of(20, retire()),
                of(20, create_with(9, 0, 5)),
            ],
        ),
        block(
            "3 of 3: a retire of the only file, a mark and a create",
            &[file(&[])],
            &[retire(), mark(11), create(11, HOLDER)],
        ),
        block(
            "4 of 4: a full book, a place freed and taken",
            &full,
            &[
                of(645, create(3, 0)),
                of(10, retire()),
                of(645, create(3, 0)),
                of(645, order_of(1)),
            ],
        ),
    ]
}

/// "Book, answers and notices equal those of the single calls, refused records
/// included".
fn refused_records() -> Vec<Block> {
    let kept = [file(&[
        dated(5, in_review(1, MOVE_IN)),
        scheduled(2, MOVE_OUT, 12),
    ])];
    let stacked: Vec<Order> = (1..=8)
        .map(|reference| {
            by(
                SUBMITTER + u64::from(reference),
                in_review(reference, MOVE_OUT),
            )
        })
        .collect();
    let shared: Vec<Order> = (1..=4)
        .map(|reference| in_review(reference, MOVE_OUT))
        .collect();
    vec![
        block(
            "1 of 1: a refused record alone",
            &[file(&[])],
            &[create(3, HOLDER)],
        ),
        block(
            "3 of 3: refused, taken, refused",
            &[file(&[])],
            &[mark(12), order_of(1), mark(12)],
        ),
        block(
            "3 of 3: taken, refused, taken",
            &[file(&[])],
            &[order_of(1), cancel(2), order_of(2)],
        ),
        block("4 of 4: rows 3, 3, 3, 3", &kept, &[malformed(); 4]),
        block(
            "11 of 11: rows 3, 4, 5, 7, 8, 9, 13, 14, 16, 17, 18",
            &kept,
            &[
                malformed(),
                of(9, order_of(1)),
                create(3, HOLDER),
                retire(),
                order_of(1),
                new_order(3, MOVE_IN, 101),
                cancel_by(ANOTHER, 1),
                permit(2),
                date_change(1, 20, 5),
                date_change(2, 20, 1),
                delete(ANOTHER),
            ],
        ),
        block(
            "4 of 4: rows 15, 0, 15, 0",
            &kept,
            &[mark(12), mark(11), mark(11), mark(12)],
        ),
        block(
            "3 of 3: rows 12, 0, 0, a closed order making room",
            &[file(&stacked)],
            &[order_of(9), unexecutable(4), order_of(9)],
        ),
        block(
            "3 of 3: rows 26, 0, 0, a closed order making the retailer room",
            &[file(&shared)],
            &[order_of(9), unexecutable(4), order_of(9)],
        ),
        block(
            "3 of 3: rows 11, 0, 0, the day freed",
            &[file(&[scheduled(1, MOVE_IN, 15)])],
            &[
                new_order(2, MOVE_IN, 15),
                unexecutable(1),
                new_order(2, MOVE_IN, 15),
            ],
        ),
        block(
            "2 of 2: rows 10, 0",
            &[file(&[])],
            &[new_order(1, STANDARD_SWITCH, 0), order_of(2)],
        )
        .with_days(vec![2; 30]),
    ]
}

/// "It stops before the first record that would find fewer than 24,576 bytes
/// free".
fn room() -> Vec<Block> {
    let flat = [file(&[])];
    let two_orders = [order_of(1), order_of(2)];
    let twelve = [
        orders(8),
        [
            of(9, create(3, 0)),
            of(9, order_of(1)),
            of(9, order_of(2)),
            of(9, order_of(3)),
        ]
        .to_vec(),
    ]
    .concat();
    vec![
        block("0 of 2: no notice byte", &flat, &two_orders).with_notice_bytes(0),
        block("0 of 2: 23 notice bytes", &flat, &two_orders).with_notice_bytes(23),
        block("0 of 2: 24 notice bytes", &flat, &two_orders).with_notice_bytes(24),
        block("0 of 2: 24,575 notice bytes", &flat, &two_orders).with_notice_bytes(LEAST - 1),
        block(
            "0 of 1: 24,575 notice bytes, a record without a notice",
            &flat,
            &[retire()],
        )
        .with_notice_bytes(LEAST - 1),
        block(
            "0 of 1: 24,575 notice bytes, a refused record",
            &flat,
            &[create(3, 0)],
        )
        .with_notice_bytes(LEAST - 1),
        block(
            "0 of 1: 24,575 notice bytes, a malformed record",
            &flat,
            &[malformed()],
        )
        .with_notice_bytes(LEAST - 1),
        block("1 of 2: 24,576 notice bytes", &flat, &two_orders).with_notice_bytes(LEAST),
        block("1 of 1: 24,576 notice bytes", &flat, &two_orders[..1]).with_notice_bytes(LEAST),
        block(
            "4 of 4: 24,576 notice bytes, no notice at all",
            &flat,
            &[retire(), create(3, 0), create(3, 0), mark(11)],
        )
        .with_notice_bytes(LEAST),
        block(
            "3 of 5: 24,576 notice bytes, the third record gives the first notice",
            &flat,
            &[mark(11), mark(11), order_of(1), mark(12), order_of(2)],
        )
        .with_notice_bytes(LEAST),
        block(
            "1 of 2: it stops before a record without a notice",
            &flat,
            &[order_of(1), mark(11)],
        )
        .with_notice_bytes(LEAST),
        block(
            "1 of 2: it stops before a refused record",
            &flat,
            &[order_of(1), order_of(1)],
        )
        .with_notice_bytes(LEAST + 23),
        block(
            "1 of 3: it stops before a malformed record, and plays none behind it",
            &flat,
            &[order_of(1), malformed(), mark(11)],
        )
        .with_notice_bytes(LEAST + 23),
        block("1 of 3: 24,576 + 23 notice bytes", &flat, &orders(3)).with_notice_bytes(LEAST + 23),
        block("2 of 3: 24,576 + 24 notice bytes", &flat, &orders(3)).with_notice_bytes(LEAST + 24),
        block("2 of 3: 24,576 + 25 notice bytes", &flat, &orders(3)).with_notice_bytes(LEAST + 25),
        block(
            "2 of 2: the last record finds 24,576 bytes",
            &flat,
            &two_orders,
        )
        .with_notice_bytes(LEAST + 24),
        block(
            "2 of 3: two notices of one record leave too little",
            &[agreed_file(&[])],
            &[order_of(1), establish(ANOTHER), order_of(2)],
        )
        .with_notice_bytes(LEAST + 48),
        block(
            "3 of 3: two notices of one record leave just enough",
            &[agreed_file(&[])],
            &[order_of(1), establish(ANOTHER), order_of(2)],
        )
        .with_notice_bytes(LEAST + 72),
        block("12 of 12: 24,576 + 240 notice bytes", &flat, &twelve).with_notice_bytes(LEAST + 240),
        block("11 of 12: 24,576 + 239 notice bytes", &flat, &twelve).with_notice_bytes(LEAST + 239),
        block("12 of 12: three times as many notice bytes", &flat, &twelve)
            .with_notice_bytes(3 * LEAST),
        block("12 of 12: the longest notice buffer", &flat, &twelve).with_notice_bytes(MOST_ROOM),
    ]
}

/// 64 files with 8 orders each that wait for the last of their seven days: the
/// next mark gives 1,024 notices, 24,576 bytes.
fn fullest_book() -> Vec<File> {
    let waits: Vec<Order> = (1..=8)
        .map(|reference| pending_for(6, cancel_pending(reference, MOVE_IN, NO_DAY)))
        .collect();
    let flat = |place: u64| File {
        premise: 10 * place,
        ..file(&waits)
    };
    (1..=64).map(flat).collect()
}

fn most_notices() -> Vec<Block> {
    let first = of(10, order_of(9));
    let behind = [mark(11), first, of(20, order_of(9))];
    vec![
        block(
            "1 of 2: a mark that fills the buffer",
            &fullest_book(),
            &[mark(11), mark(12)],
        )
        .with_notice_bytes(LEAST),
        block(
            "1 of 3: a mark that leaves 24,575 bytes",
            &fullest_book(),
            &behind,
        )
        .with_notice_bytes(2 * LEAST - 1),
        block(
            "2 of 3: a mark that leaves 24,576 bytes",
            &fullest_book(),
            &behind,
        )
        .with_notice_bytes(2 * LEAST),
        block(
            "3 of 3: a mark in the middle that leaves 24,576 bytes",
            &fullest_book(),
            &[of(10, unexecutable(1)), mark(11), first],
        )
        .with_notice_bytes(2 * LEAST - 24),
    ]
}

/// "or at fewer than 24 bytes of tape": the rest has no answer byte.
fn short_rests() -> Vec<Block> {
    let flat = [file(&[])];
    let one = order_of(1);
    let rest = order_of(2);
    vec![
        block("0 of 0: 1 byte", &flat, &[]).with_rest(&one[..1]),
        block("0 of 0: 23 bytes", &flat, &[]).with_rest(&one[..23]),
        block("0 of 0: 23 bytes and an answer byte", &flat, &[])
            .with_rest(&one[..23])
            .with_answer_bytes(1),
        block("1 of 1: 25 bytes", &flat, &[one]).with_rest(&rest[..1]),
        block("1 of 1: 25 bytes and two answer bytes", &flat, &[one])
            .with_rest(&rest[..1])
            .with_answer_bytes(2),
        block("1 of 1: 47 bytes", &flat, &[one]).with_rest(&rest[..23]),
        block("1 of 1: 47 bytes, the rest all zero", &flat, &[one])
            .with_rest(&[0; 23])
            .with_answer_bytes(2),
        block(
            "2 of 2: 49 bytes, the last record refused",
            &flat,
            &[one, one],
        )
        .with_rest(&[0]),
        block(
            "1 of 2: 71 bytes and room for one notice",
            &flat,
            &[one, rest],
        )
        .with_rest(&[0; 23])
        .with_notice_bytes(LEAST),
    ]
}

/// Over and over: a file made, an order sent, found unexecutable, the file
/// retired. Half of the records give a notice.
fn rounds(records: usize) -> Vec<[u8; 24]> {
    let round = [create(3, HOLDER), order_of(1), unexecutable(1), retire()];
    round.into_iter().cycle().take(records).collect()
}

fn long_stretches() -> Vec<Block> {
    let longest = LONGEST_STRETCH / 24;
    vec![
        block(
            "300 of 300: more records than a byte counts",
            &[],
            &rounds(300),
        ),
        block(
            "2729 of 2729: 65,519 bytes, the last 23 a short rest",
            &[],
            &rounds(longest - 1),
        )
        .with_rest(&mark(11)[..23])
        .with_notice_bytes(MOST_ROOM),
        block(
            "2730 of 2730: the longest stretch and the longest answer buffer",
            &[],
            &rounds(longest),
        )
        .with_answer_bytes(4_096)
        .with_notice_bytes(MOST_ROOM),
        block(
            "399 of 800: it stops behind the two hundredth notice",
            &[],
            &rounds(800),
        )
        .with_notice_bytes(LEAST + 200 * 24 - 24),
    ]
}

/// "the call returns 0, even where a single call would get 1 or 2".
fn damaged_books() -> Vec<Block> {
    let three = [order_of(1), mark(11), create(3, 0)];
    let late = || book(4_096, &[file(&[])]);
    let told_twice = || {
        book(
            TODAY,
            &[file(&[Order {
                told: 2,
                ..in_review(1, MOVE_IN)
            }])],
        )
    };
    let unused = || {
        let mut book = book(TODAY, &[file(&[])]);
        book.files[63].orders[7].counter = 1;
        book
    };
    let too_many = || {
        let mut book = book(TODAY, &[file(&[])]);
        book.file_count = 65;
        book
    };
    vec![
        block_on("3 of 3: 2, 2, 2 on a book of day 4,096", late(), &three),
        block_on(
            "3 of 3: 2, 2, 2 on a book with told 2",
            told_twice(),
            &three,
        ),
        block_on(
            "3 of 3: 2, 2, 2 on a book damaged in an unused place",
            unused(),
            &three,
        ),
        block_on("3 of 3: 2, 2, 2 on a book of 65 files", too_many(), &three),
        block_on(
            "3 of 3: 2, 2, 2 for records that are malformed",
            late(),
            &[malformed(); 3],
        ),
        block_on(
            "1 of 1: 2 for a retire of the damaged file",
            told_twice(),
            &[retire()],
        ),
        block_on("0 of 0: a damaged book and no record", late(), &[]),
        block_on("0 of 0: a damaged book and 23 bytes", late(), &[])
            .with_rest(&three[0][..23])
            .with_answer_bytes(1),
        block_on(
            "3 of 3: a damaged book and 24,576 notice bytes",
            late(),
            &three,
        )
        .with_notice_bytes(LEAST),
        block_on(
            "0 of 3: a damaged book and 24,575 notice bytes",
            late(),
            &three,
        )
        .with_notice_bytes(LEAST - 1),
        block_on("0 of 3: a damaged book and no notice byte", late(), &three).with_notice_bytes(0),
        block_on(
            "3 of 3: a damaged book, a short rest, more answer bytes",
            late(),
            &three,
        )
        .with_rest(&three[0][..5])
        .with_answer_bytes(9),
        block_on(
            "300 of 300: a damaged book and many records",
            unused(),
            &rounds(300),
        ),
    ]
}

/// "Answers go to a second lent buffer of one byte a record; answer bytes past the
/// number played and notice bytes past those written stay".
fn answer_buffers() -> Vec<Block> {
    let flat = [file(&[])];
    let three = [order_of(1), order_of(1), order_of(2)];
    vec![
        block("3 of 3: an answer byte more than records", &flat, &three).with_answer_bytes(4),
        block("3 of 3: ten times as many answer bytes", &flat, &three).with_answer_bytes(30),
        block("0 of 0: answer bytes and no record", &flat, &[]).with_answer_bytes(5),
        block("1 of 3: answer bytes past those played stay", &flat, &three)
            .with_notice_bytes(LEAST + 24 - 1)
            .with_answer_bytes(3),
        block("0 of 3: without room all answer bytes stay", &flat, &three)
            .with_notice_bytes(LEAST - 1)
            .with_answer_bytes(4),
    ]
}

/// "19 when the answer buffer is shorter than the number of whole records in the
/// stretch, before anything is played".
fn too_few_answer_bytes() -> Vec<Block> {
    let flat = [file(&[])];
    let three = [order_of(1), order_of(1), order_of(2)];
    let damaged = || book(4_096, &flat);
    vec![
        block("19: no answer byte for a record", &flat, &three[..1]).with_answer_bytes(0),
        block("19: an answer byte short", &flat, &three).with_answer_bytes(2),
        block("19: no answer byte for three", &flat, &three).with_answer_bytes(0),
        block("19: an answer byte short, with a short rest", &flat, &three)
            .with_rest(&three[0][..23])
            .with_answer_bytes(2),
        block(
            "19: for all records, also those for which there is no room",
            &flat,
            &three,
        )
        .with_notice_bytes(LEAST)
        .with_answer_bytes(2),
        block(
            "19: for all records, also refused ones",
            &flat,
            &[create(3, 0), mark(12)],
        )
        .with_answer_bytes(1),
        block("19: before too little room", &flat, &three)
            .with_notice_bytes(LEAST - 1)
            .with_answer_bytes(2),
        block(
            "19: before too little room, with neither byte",
            &flat,
            &three,
        )
        .with_notice_bytes(0)
        .with_answer_bytes(0),
        block_on("19: before a damaged book", damaged(), &three).with_answer_bytes(2),
        block_on(
            "19: before a damaged book and too little room",
            damaged(),
            &three,
        )
        .with_notice_bytes(0)
        .with_answer_bytes(2),
        block("19: 255 answer bytes for 300 records", &[], &rounds(300)).with_answer_bytes(255),
        block(
            "19: 2,729 answer bytes for the longest stretch",
            &[],
            &rounds(LONGEST_STRETCH / 24),
        )
        .with_answer_bytes(2_729)
        .with_notice_bytes(MOST_ROOM),
    ]
}

/// The totals of the book go on from record to record, and where they are off every
/// record is answered 2 (change 11).
fn totals() -> Vec<Block> {
    let day = [
        new_order(9, MOVE_IN, 25),
        permit(9),
        permit(2),
        schedule(1, 20),
        cancel(2),
        reject(3),
        mark(11),
        unexecutable(7),
        read(1, 11),
        mark(12),
    ];
    let three = [order_of(1), mark(11), create(3, 0)];
    let off = |name, totals| {
        let mut book = book(TODAY, &[file(&[])]);
        book.waiting = Waiting::new(totals);
        block_on(name, book, &three)
    };
    vec![
        block_on("10 of 10: four totals that move", totals::screen(), &day),
        block_on(
            "4 of 10: four totals that move until there is no room",
            totals::screen(),
            &day,
        )
        .with_notice_bytes(LEAST + 3 * 24 - 1),
        off(
            "3 of 3: 2, 2, 2 where the first record would make up for a total",
            [1, 0, 0, 0],
        ),
        off(
            "3 of 3: 2, 2, 2 on a book with one Permit Pending too many",
            [0, 1, 0, 0],
        ),
        off(
            "3 of 3: 2, 2, 2 on a book with one Scheduled too many",
            [0, 0, 1, 0],
        ),
        off(
            "3 of 3: 2, 2, 2 on a book with 256 Cancel Pending too many",
            [0, 0, 0, 256],
        ),
        off("19: totals that are off", [0, 0, 0, 1]).with_answer_bytes(2),
    ]
}
