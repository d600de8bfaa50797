//! What tapes cover: answers, kinds of record, notices, the branches of the
//! clock, the passes of the evaluation, the cells of table 11.1.
//!
//! The steps of each accepted record are done once more on a copy of the file,
//! one by one, to see which of them acted.

use stacking::answer::Answer;
use stacking::book::{record_call, Book};
use stacking::clock::{self, LONGEST_WAIT, REVIEW_WAIT};
use stacking::days::{is_business_day, switch_date, USUAL_WINDOW, WIDEST_WINDOW};
use stacking::evaluation;
use stacking::file::{File, NO_AGREEMENT};
use stacking::first_in;
use stacking::notice::{NoticeWriter, NOTICE_BUFFER_BYTES, TDSP};
use stacking::order::{kind, status, Order};
use stacking::premise;
use stacking::record::{
    decode, Agreement, Entry, Event, Fields, NewOrder, OrderEntry, Record, RECORD_BYTES,
};
use stacking::waiting::waiting_orders;
use std::collections::HashSet;
use std::io::{self, Write};

/// The branches of the clock.
const BRANCHES: [&str; 12] = [
    "In Review, no business day, waits on",
    "In Review, business day, waits on",
    "In Review, N held at 21",
    "In Review, ends by 20 before the requested day",
    "In Review, ends by 3 or more when due",
    "Permit Pending, no business day, waits on",
    "Permit Pending, business day before the requested day, waits on",
    "Permit Pending, business day, waits on",
    "Permit Pending, ends by 21",
    "Cancel Pending, waits on",
    "Cancel Pending, ends by 7",
    "another status, stays",
];

const PASSES: [&str; 4] = [
    "1 switches of one day",
    "2 drops beside switches",
    "3 overtaken permits",
    "4 telling the retailers",
];

const KINDS: [&str; 13] = [
    "malformed or short",
    "1 create",
    "2 retire",
    "3 new order",
    "4 scheduled",
    "5 permit required",
    "6 unexecutable",
    "7 meter read",
    "8 cancel",
    "9 cancel reply",
    "10 day mark",
    "11 date change",
    "12 agreement",
];

/// The largest retailer without a suffix.
const NINE_DIGITS: u64 = 999_999_999;

/// Records that name a retailer with a suffix and are taken.
const LONG_RETAILERS: [&str; 4] = ["create", "new order", "cancel", "agreement"];

/// What would come out otherwise if the low 32 bits of retailers were compared.
const ENDS_ALIKE: [&str; 5] = [
    "answer 13 to a cancel by a retailer that ends like Q",
    "answer 18 to a delete by a retailer that ends like C",
    "notice 10 to a retailer that ends like the new one",
    "notice 4 to a retailer that ends like Q",
    "no answer 26 for four orders of retailers that end like Q",
];

/// The open statuses, in the order of their totals.
const OPEN_STATUSES: [&str; 4] = ["In Review", "Permit Pending", "Scheduled", "Cancel Pending"];

/// How calls move the totals of the open statuses (02, change 11).
const MOVES: [&str; 5] = [
    "a record that moves totals for two orders of its file",
    "a record that moves totals for three or more orders of its file",
    "a mark that moves totals for one file of several",
    "a mark that moves totals for several files",
    "a mark that moves totals and leaves the first file's",
];

/// A pass of the evaluation.
type Pass = fn(&mut File, &[u8], u16, &mut NoticeWriter);

const PASS_STEPS: [Pass; 4] = [
    evaluation::keep_one_switch_a_day,
    evaluation::cancel_drops_beside_switches,
    |file, _, today, notices| evaluation::cancel_overtaken_permits(file, today, notices),
    evaluation::tell_retailers,
];

/// How often each thing was met.
#[derive(Default)]
pub struct Coverage {
    tapes: u64,
    /// By place in [`Answer::ALL`].
    answers: [u64; Answer::ALL.len()],
    /// Row 26: with a place left that no open order takes, with none.
    shares: [u64; 2],
    /// By kind of record: refused, accepted.
    kinds: [[u64; 2]; KINDS.len()],
    codes: [u64; 12],
    /// Notices 9 to the premise's retailer, who was told.
    new_dates_told: u64,
    /// Notices 7 to the holder of the service agreement, who was told.
    agreements_told: u64,
    /// Move outs that left a premise to the holder of its service agreement.
    agreements_read: u64,
    /// Move outs read on the day of a move in.
    held_off: u64,
    /// By the window that a create gave.
    windows: [u64; 1 + WIDEST_WINDOW.0 as usize],
    /// Evaluations that a window of two business days would end otherwise.
    decided_by_window: u64,
    /// Records but a scheduling and a mark that told of a move out.
    told_later: u64,
    /// By place in [`LONG_RETAILERS`].
    long_retailers: [u64; LONG_RETAILERS.len()],
    /// Notices to a retailer with a suffix.
    long_addressees: u64,
    /// Date changes with a counter and more behind it.
    long_counters: u64,
    /// By place in [`ENDS_ALIKE`].
    ends_alike: [u64; ENDS_ALIKE.len()],
    branches: [u64; BRANCHES.len()],
    /// By pass: did not act, acted.
    passes: [[u64; 2]; 4],
    /// By held and new kind, a Scheduled order on the new order's day.
    cells: [[u64; 4]; 5],
    /// A Scheduled standard switch after the day of a new one.
    later_standard_switch: u64,
    /// An order dropped to make room.
    dropped: u64,
    /// Reads on a day before the retailer's since.
    late_reads: u64,
    /// A premise created that had been retired.
    created_again: u64,
    /// By open status: calls whose total grows, shrinks.
    totals: [[u64; 2]; 4],
    /// By place in [`MOVES`].
    moves: [u64; MOVES.len()],
    /// The most orders in an open status.
    most_waiting: [u16; 4],
}

impl Coverage {
    /// Plays a tape and counts what it meets.
    pub fn play(&mut self, calendar: &[u8], tape: &[u8]) {
        let mut book = Book::fresh(0);
        let mut buffer = vec![0; NOTICE_BUFFER_BYTES];
        let mut retired = HashSet::new();
        self.tapes += 1;
        for record in tape.chunks(RECORD_BYTES) {
            let before = book.clone();
            let (answer, count) = record_call(&mut book, calendar, record, &mut buffer);
            let notices = &buffer[..count * RECORD_BYTES];
            self.count_call(record, answer, notices);
            let Some(record) = decode(record) else {
                self.count_long_counter(record);
                continue;
            };
            self.count_table(&before, calendar, &record, answer);
            self.count_share(&before, &record, answer);
            self.count_ends_alike(&before, &record, answer);
            if answer == Answer::Accepted {
                self.count_long_retailer(&record);
                self.count_losers(&book, notices);
                self.count_steps(&before, calendar, &record);
                self.count_created_again(&record, &mut retired);
                self.count_totals(&before, &book, &record);
            }
        }
    }

    fn count_call(&mut self, record: &[u8], answer: Answer, notices: &[u8]) {
        let record_kind = match decode(record) {
            None => 0,
            Some(_) => usize::from(record[0]),
        };
        let place = Answer::ALL.iter().position(|&known| known == answer);
        self.answers[place.expect("every answer is among them")] += 1;
        self.kinds[record_kind][usize::from(answer == Answer::Accepted)] += 1;
        for (place, notice) in notices.chunks_exact(RECORD_BYTES).enumerate() {
            let notice = Fields::from_bytes(notice.try_into().expect("chunks are 24 bytes"));
            let of_move_out = notice.detail == kind::MOVE_OUT;
            self.codes[usize::from(notice.kind) - 1] += 1;
            self.long_addressees += u64::from(notice.retailer > NINE_DIGITS);
            self.new_dates_told += u64::from(notice.kind == 9 && notice.retailer != TDSP);
            self.agreements_told += u64::from(place == 1 && notice.kind == 7 && of_move_out);
            self.told_later += u64::from(notice.kind == 12 && !matches!(record_kind, 4 | 10));
        }
    }

    fn count_created_again(&mut self, record: &Record, retired: &mut HashSet<u64>) {
        if let Record::OfPremise { premise, entry } = *record {
            match entry {
                Entry::Retire => {
                    retired.insert(premise);
                }
                Entry::Create(new) => {
                    self.created_again += u64::from(retired.contains(&premise));
                    self.windows[usize::from(new.window)] += 1;
                }
                _ => {}
            }
        }
    }

    /// What became of the totals, and of how many orders and files.
    fn count_totals(&mut self, before: &Book, after: &Book, record: &Record) {
        let (old, new) = (waiting_orders(before).each(), waiting_orders(after).each());
        for (place, counts) in self.totals.iter_mut().enumerate() {
            counts[0] += u64::from(new[place] > old[place]);
            counts[1] += u64::from(new[place] < old[place]);
            self.most_waiting[place] = self.most_waiting[place].max(new[place]);
        }
        let moved: Vec<usize> = after
            .held()
            .iter()
            .map(|file| match before.place_of(file.premise) {
                Ok(place) => orders_moved(&before.files[place], file),
                Err(_) => 0,
            })
            .collect();
        let (orders, files) = (
            moved.iter().sum::<usize>(),
            moved.iter().filter(|&&orders| orders > 0).count(),
        );
        let met = match record {
            Record::OfPremise { .. } => [orders == 2, orders > 2, false, false, false],
            Record::DayMark { .. } => [
                false,
                false,
                files == 1 && moved.len() > 1,
                files > 1,
                files > 0 && moved[0] == 0,
            ],
        };
        for (count, met) in self.moves.iter_mut().zip(met) {
            *count += u64::from(met);
        }
    }

    /// The cells of table 11.1 that a new order meets, if it comes to row 11.
    fn count_table(&mut self, before: &Book, calendar: &[u8], record: &Record, answer: Answer) {
        let comes_to_row_11 = matches!(
            answer,
            Answer::Accepted
                | Answer::NotFirstIn
                | Answer::FourOpenOrdersOfRetailer
                | Answer::EightOpenOrders
        );
        let Record::OfPremise { premise, entry } = *record else {
            return;
        };
        let (Entry::Order(OrderEntry::New(new)), true) = (entry, comes_to_row_11) else {
            return;
        };
        let day = requested_day(&new, calendar, before.today);
        for order in file_of(before, premise).held() {
            if order.is_scheduled() && new.kind != kind::MASS_TRANSITION_DROP {
                self.count_cell(order, new.kind, day);
            }
        }
    }

    /// A retailer that has its share: are other retailers' orders the rest of eight?
    fn count_share(&mut self, before: &Book, record: &Record, answer: Answer) {
        if let (Record::OfPremise { premise, .. }, Answer::FourOpenOrdersOfRetailer) =
            (*record, answer)
        {
            let full = file_of(before, premise).is_full_of_open_orders();
            self.shares[usize::from(full)] += 1;
        }
    }

    fn count_long_counter(&mut self, record: &[u8]) {
        if let Ok(bytes) = record.try_into() {
            let fields = Fields::from_bytes(bytes);
            let is_long = fields.retailer > u64::from(u32::MAX) && fields.retailer as u32 != 0;
            self.long_counters += u64::from(fields.kind == 11 && is_long);
        }
    }

    fn count_long_retailer(&mut self, record: &Record) {
        if let Record::OfPremise { entry, .. } = *record {
            let place = match entry {
                Entry::Create(_) => 0,
                Entry::Order(OrderEntry::New(_)) => 1,
                Entry::Order(_) => 2,
                _ => 3,
            };
            let is_long = named_retailer(&entry).is_some_and(|retailer| retailer > NINE_DIGITS);
            self.long_retailers[place] += u64::from(is_long);
        }
    }

    /// Rows 13, 18 and 26, and notice 10.
    fn count_ends_alike(&mut self, before: &Book, record: &Record, answer: Answer) {
        let Record::OfPremise { premise, entry } = *record else {
            return;
        };
        let (Some(retailer), Ok(place)) = (named_retailer(&entry), before.place_of(premise)) else {
            return;
        };
        let file = &before.files[place];
        let alike = |other| u64::from(ends_alike(retailer, other));
        match (entry, answer) {
            (Entry::Order(OrderEntry::Event { reference, .. }), Answer::NoSuchOrder) => {
                let order = file.place_of(reference).map(|place| &file.orders[place]);
                self.ends_alike[0] += order.map_or(0, |order| alike(order.retailer));
            }
            (Entry::Agreement(Agreement::Delete { .. }), Answer::AgreementOfAnother) => {
                self.ends_alike[1] += alike(file.agreement);
            }
            (Entry::Agreement(Agreement::Establish { .. }), Answer::Accepted) => {
                self.ends_alike[2] += alike(file.agreement);
            }
            (Entry::Order(OrderEntry::New(_)), Answer::Accepted) => {
                let open = file.held().iter().filter(|order| order.is_open());
                let like = open.filter(|order| order.retailer as u32 == retailer as u32);
                self.ends_alike[4] += u64::from(like.count() >= 4);
            }
            _ => {}
        }
    }

    /// Notices 4, whose order is among those held afterwards.
    fn count_losers(&mut self, after: &Book, notices: &[u8]) {
        for notice in notices.chunks_exact(RECORD_BYTES) {
            let notice = Fields::from_bytes(notice.try_into().expect("chunks are 24 bytes"));
            if notice.kind == 4 {
                let file = file_of(after, notice.premise);
                let place = file.place_of(notice.reference).expect("the order is held");
                let alike = ends_alike(notice.retailer, file.orders[place].retailer);
                self.ends_alike[3] += u64::from(alike);
            }
        }
    }

    fn count_cell(&mut self, order: &Order, new_kind: u8, day: u16) {
        if order.scheduled_day == day {
            self.cells[usize::from(order.kind) - 1][usize::from(new_kind) - 1] += 1;
        } else if order.kind == kind::STANDARD_SWITCH
            && new_kind == kind::STANDARD_SWITCH
            && order.scheduled_day > day
        {
            self.later_standard_switch += 1;
        }
    }

    /// Does the steps of an accepted record once more, on copies.
    fn count_steps(&mut self, before: &Book, calendar: &[u8], record: &Record) {
        match *record {
            Record::DayMark { day } => {
                for &file in before.held() {
                    let after_clock = self.count_clock(file, calendar, day);
                    self.count_passes(after_clock, calendar, day);
                }
            }
            Record::OfPremise { entry, premise } => {
                if let Entry::Order(entry) = entry {
                    let file = file_of(before, premise);
                    let after = self.count_record(file, calendar, before.today, entry);
                    self.count_passes(after, calendar, before.today);
                }
            }
        }
    }

    fn count_record(
        &mut self,
        before: &File,
        calendar: &[u8],
        today: u16,
        entry: OrderEntry,
    ) -> File {
        let mut file = *before;
        let taken =
            with_writer(|notices| premise::order_step(&mut file, calendar, today, entry, notices));
        assert_eq!(taken, Ok(()), "the record was accepted");
        let is_new = matches!(entry, OrderEntry::New(_));
        self.dropped += u64::from(is_new && before.order_count == file.order_count);
        if let Some((order, Event::MeterRead { day })) = named_order(before, entry) {
            let in_time = order.is_scheduled() && day >= before.since;
            let is_held_off = file.retailer == before.retailer && file.moved_in == 1;
            let is_move_out = order.kind == kind::MOVE_OUT;
            let to_agreement = before.agreement != NO_AGREEMENT && !is_held_off;
            self.late_reads += u64::from(order.is_scheduled() && !in_time);
            self.agreements_read += u64::from(in_time && is_move_out && to_agreement);
            self.held_off += u64::from(in_time && is_move_out && is_held_off);
        }
        file
    }

    fn count_clock(&mut self, mut file: File, calendar: &[u8], today: u16) -> File {
        let before = file;
        with_writer(|notices| clock::run(&mut file, calendar, today, notices));
        let business_day = is_business_day(calendar, today);
        for (old, new) in before.held().iter().zip(file.held()) {
            self.branches[branch(old, new, today, business_day)] += 1;
        }
        file
    }

    fn count_passes(&mut self, mut file: File, calendar: &[u8], today: u16) {
        let mut usual = File {
            window: USUAL_WINDOW,
            ..file
        };
        with_writer(|notices| evaluation::run(&mut usual, calendar, today, notices));
        for (counts, pass) in self.passes.iter_mut().zip(PASS_STEPS) {
            let before = file;
            with_writer(|notices| pass(&mut file, calendar, today, notices));
            counts[usize::from(file != before)] += 1;
        }
        self.decided_by_window += u64::from(file.orders != usual.orders);
    }

    /// Every count with its name, in the paper's order.
    fn lines(&self) -> Vec<(String, u64)> {
        let mut lines = Vec::new();
        for (answer, &count) in Answer::ALL.iter().zip(&self.answers) {
            // no tape gets 1 or 2
            if !matches!(answer, Answer::BufferTooShort | Answer::BookNotWellKept) {
                lines.push((format!("answer {}", answer.number()), count));
            }
        }
        let [room_left, full] = self.shares;
        lines.push(("answer 26 with fewer than 8 open orders".into(), room_left));
        lines.push(("answer 26 with 8 open orders".into(), full));
        for (name, [refused, accepted]) in KINDS.iter().zip(self.kinds) {
            lines.push((format!("record {name}, refused"), refused));
            if *name != KINDS[0] {
                lines.push((format!("record {name}, accepted"), accepted));
            }
        }
        for (place, &count) in self.codes.iter().enumerate() {
            lines.push((format!("notice {}", place + 1), count));
        }
        for (name, count) in [
            ("notice 9 to a retailer that was told", self.new_dates_told),
            (
                "notice 7 to the holder of an agreement",
                self.agreements_told,
            ),
            (
                "notice 12 after neither a scheduling nor a mark",
                self.told_later,
            ),
            (
                "a move out's read for the holder of an agreement",
                self.agreements_read,
            ),
            ("a move out's read held off by a move in's", self.held_off),
        ] {
            lines.push((name.into(), count));
        }
        for (name, &count) in LONG_RETAILERS.iter().zip(&self.long_retailers) {
            lines.push((format!("{name} of a retailer with a suffix"), count));
        }
        lines.push((
            "notice to a retailer with a suffix".into(),
            self.long_addressees,
        ));
        lines.push((
            "date change with a counter and more behind it".into(),
            self.long_counters,
        ));
        for (name, &count) in ENDS_ALIKE.iter().zip(&self.ends_alike) {
            lines.push(((*name).into(), count));
        }
        for (name, &count) in BRANCHES.iter().zip(&self.branches) {
            lines.push((format!("clock: {name}"), count));
        }
        for (name, [idle, acted]) in PASSES.iter().zip(self.passes) {
            lines.push((format!("pass {name}, acted"), acted));
            lines.push((format!("pass {name}, did not act"), idle));
        }
        self.push_table(&mut lines);
        for (width, &count) in self.windows.iter().enumerate() {
            lines.push((format!("create with window {width}, accepted"), count));
        }
        lines.push((
            "evaluation that its window decides".into(),
            self.decided_by_window,
        ));
        lines.push(("oldest closed order dropped".into(), self.dropped));
        lines.push(("read before since".into(), self.late_reads));
        lines.push(("retired premise created again".into(), self.created_again));
        for (name, [grew, shrank]) in OPEN_STATUSES.iter().zip(self.totals) {
            lines.push((format!("total of {name} grows"), grew));
            lines.push((format!("total of {name} shrinks"), shrank));
        }
        for (name, &count) in MOVES.iter().zip(&self.moves) {
            lines.push(((*name).into(), count));
        }
        for (name, &most) in OPEN_STATUSES.iter().zip(&self.most_waiting) {
            lines.push((format!("orders {name}, the most at once"), most.into()));
        }
        lines
    }

    fn push_table(&self, lines: &mut Vec<(String, u64)>) {
        for (held, row) in self.cells.iter().enumerate() {
            for (new, &count) in row.iter().enumerate() {
                let letter = match first_in::TABLE[held][new] {
                    true => "Y",
                    false => "N",
                };
                let (held, new) = (held + 1, new + 1);
                lines.push((
                    format!("table 11.1, Scheduled {held}, new {new}: {letter}"),
                    count,
                ));
            }
        }
        lines.push((
            "Scheduled 3 after the day of a new 3".into(),
            self.later_standard_switch,
        ));
    }

    /// Prints the counts, and what a tape can meet and none did.
    pub fn write(&self, out: &mut dyn Write) -> io::Result<()> {
        let lines = self.lines();
        writeln!(out, "{:>10} tapes", self.tapes)?;
        for (name, count) in &lines {
            writeln!(out, "{count:>10} {name}")?;
        }
        let missed: Vec<&str> = lines
            .iter()
            .filter(|(_, count)| *count == 0)
            .map(|(name, _)| name.as_str())
            .collect();
        match missed.as_slice() {
            [] => writeln!(out, "not met: nothing"),
            names => writeln!(out, "not met: {}", names.join("; ")),
        }
    }
}

fn with_writer<T>(step: impl FnOnce(&mut NoticeWriter) -> T) -> T {
    let mut room = [0; 16 * RECORD_BYTES];
    step(&mut NoticeWriter::new(&mut room))
}

fn file_of(book: &Book, premise: u64) -> &File {
    let file = book.held().iter().find(|file| file.premise == premise);
    file.expect("the record came past row 4")
}

/// How many orders came, or changed their status, in a file.
fn orders_moved(before: &File, after: &File) -> usize {
    let status_before = |order: &Order| {
        let place = before.place_of(order.reference)?;
        Some(before.orders[place].status)
    };
    let held = after.held().iter();
    held.filter(|order| status_before(order) != Some(order.status))
        .count()
}

/// The retailer that a record names, if its kind does.
fn named_retailer(entry: &Entry) -> Option<u64> {
    match *entry {
        Entry::Create(new) => Some(new.retailer),
        Entry::Order(OrderEntry::New(new)) => Some(new.retailer),
        Entry::Order(OrderEntry::Event { event, .. }) => match event {
            Event::Cancel { retailer } => Some(retailer),
            _ => None,
        },
        Entry::Agreement(Agreement::Establish { retailer }) => Some(retailer),
        Entry::Agreement(Agreement::Delete { retailer }) => Some(retailer),
        Entry::Retire => None,
    }
}

/// Two retailers whose numbers have the same low 32 bits.
fn ends_alike(one: u64, other: u64) -> bool {
    one != other && one as u32 == other as u32
}

/// The order that a record is about, and what happens to it.
fn named_order(file: &File, entry: OrderEntry) -> Option<(&Order, Event)> {
    match entry {
        OrderEntry::New(_) => None,
        OrderEntry::Event { reference, event } => {
            Some((&file.orders[file.place_of(reference)?], event))
        }
    }
}

fn requested_day(new: &NewOrder, calendar: &[u8], today: u16) -> u16 {
    match new.kind {
        kind::STANDARD_SWITCH => switch_date(calendar, today).expect("the record came past row 10"),
        _ => new.day,
    }
}

/// The place in [`BRANCHES`] of what the clock did to an order.
fn branch(before: &Order, after: &Order, today: u16, business_day: bool) -> usize {
    let ended = before.status != after.status;
    let due = today >= before.requested_day;
    match (before.status, ended) {
        (status::IN_REVIEW, _) if before.waited == LONGEST_WAIT && business_day => 2,
        (status::IN_REVIEW, false) => usize::from(business_day),
        (status::IN_REVIEW, true) if !due && after.waited >= REVIEW_WAIT => 3,
        (status::IN_REVIEW, true) => 4,
        (status::PERMIT_PENDING, true) => 8,
        (status::PERMIT_PENDING, false) => match (business_day, due) {
            (false, _) => 5,
            (true, false) => 6,
            (true, true) => 7,
        },
        (status::CANCEL_PENDING, ended) => 9 + usize::from(ended),
        _ => 11,
    }
}
