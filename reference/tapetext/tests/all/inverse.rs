//! Bytes to text to bytes is the identity, on any bytes; text to bytes to text
//! is the identity on the text that decoding prints.

use tapetext::{decode, encode, Tape, CALENDAR_DAYS, RECORD_BYTES};

#[rustfmt::skip]
const WORDS: [&str; 30] = [
    "calendar", "absent", "9", "days,", "holiday", "day-kind", "2..3", "3..2", "create", "retire",
    "move-in", "reply", "accept", "day", "days", "raw", "0a", "premise", "reference", "retailer",
    "#", "7", "99999999999999999999", "\u{e9}", "date-change", "counter",
    "establish", "delete", "window", "9999999999999",
];

/// SplitMix64: a seed gives the same tapes on every machine.
struct Random(u64);

impl Random {
    fn next(&mut self) -> u64 {
        self.0 = self.0.wrapping_add(0x9e37_79b9_7f4a_7c15);
        let mut mixed = self.0;
        mixed = (mixed ^ (mixed >> 30)).wrapping_mul(0xbf58_476d_1ce4_e5b9);
        mixed = (mixed ^ (mixed >> 27)).wrapping_mul(0x94d0_49bb_1331_11eb);
        mixed ^ (mixed >> 31)
    }

    fn below(&mut self, bound: u64) -> u64 {
        self.next() % bound
    }

    fn bytes(&mut self, length: usize) -> Vec<u8> {
        (0..length).map(|_| self.next() as u8).collect()
    }

    /// A record of one of the kinds with its fields filled at random, and one
    /// time in four a byte that should not be there.
    fn near_record(&mut self) -> Vec<u8> {
        let mut record = vec![0; RECORD_BYTES];
        record[0] = self.below(14) as u8;
        record[1] = self.below(7) as u8;
        for field in [2..4, 4..8, 8..16, 16..20, 20..24] {
            if self.below(3) > 0 {
                let filled = self.bytes(field.len());
                record[field].copy_from_slice(&filled);
            }
        }
        if self.below(4) == 0 {
            record[self.below(RECORD_BYTES as u64) as usize] = self.next() as u8;
        }
        record
    }

    fn records(&mut self) -> Vec<u8> {
        let mut records = Vec::new();
        for _ in 0..self.below(20) {
            match self.below(4) {
                0 => records.extend(self.bytes(RECORD_BYTES)),
                _ => records.extend(self.near_record()),
            }
        }
        let short = self.below(RECORD_BYTES as u64) as usize;
        records.extend(self.bytes(short));
        records
    }

    fn calendar(&mut self) -> Option<Vec<u8>> {
        let length = match self.below(4) {
            0 => self.below(10) as usize,
            1 => CALENDAR_DAYS,
            _ => self.below(CALENDAR_DAYS as u64 + 1) as usize,
        };
        match self.below(5) {
            0 => None,
            1 => Some(self.bytes(length)),
            2 => Some((0..length).map(|_| self.below(3) as u8).collect()),
            _ => Some(self.near_pattern(length)),
        }
    }

    /// Lines of words that texts are made of, few of them in good order.
    fn near_text(&mut self) -> String {
        let mut text = String::from("calendar 9 days, all of kind 0\n");
        for _ in 0..self.below(4) {
            for _ in 0..self.below(8) {
                text.push_str(WORDS[self.below(WORDS.len() as u64) as usize]);
                text.push(' ');
            }
            text.push('\n');
        }
        text
    }

    /// A pattern of 1 to 8 days, repeated, with stretches that differ.
    fn near_pattern(&mut self, length: usize) -> Vec<u8> {
        let size = 1 + self.below(8) as usize;
        let pattern: Vec<u8> = (0..size).map(|_| self.below(4) as u8).collect();
        let mut days: Vec<u8> = pattern.into_iter().cycle().take(length).collect();
        for _ in 0..self.below(9) {
            let start = self.below(length as u64 + 1) as usize;
            let end = length.min(start + self.below(9) as usize);
            days[start..end].fill(self.below(4) as u8);
        }
        days
    }
}

fn assert_inverse(tape: &Tape) {
    let text = decode(tape).expect("a calendar of at most 4,096 days has a text");
    let again = encode(&text).expect("what decoding prints is accepted");
    assert_eq!(&again, tape, "{text}");
    assert_eq!(decode(&again), Ok(text));
}

#[test]
fn any_tape_and_calendar_come_back() {
    let mut random = Random(1);
    for _ in 0..300 {
        let tape = Tape {
            calendar: random.calendar(),
            records: random.records(),
        };
        assert_inverse(&tape);
    }
}

#[test]
fn every_kind_and_detail_comes_back() {
    let mut random = Random(2);
    for kind in 0..=u8::MAX {
        let mut records = Vec::new();
        for detail in 0..=u8::MAX {
            let mut record = random.near_record();
            (record[0], record[1]) = (kind, detail);
            records.extend(record);
        }
        assert_inverse(&Tape {
            calendar: None,
            records,
        });
    }
}

#[test]
fn short_and_full_lengths_of_tape_and_calendar_come_back() {
    let mut random = Random(3);
    for length in (0..=100).chain(CALENDAR_DAYS - 14..=CALENDAR_DAYS) {
        assert_inverse(&Tape {
            calendar: Some(random.near_pattern(length)),
            records: random.bytes(length % 100),
        });
    }
}

#[test]
fn any_text_is_taken_or_told() {
    let mut random = Random(4);
    let (mut taken, mut told) = (0, 0);
    for _ in 0..5_000 {
        match encode(&random.near_text()) {
            Ok(tape) => {
                assert_inverse(&tape);
                taken += 1;
            }
            Err(problems) => {
                assert!(!problems.is_empty());
                told += 1;
            }
        }
    }
    assert!(taken > 100 && told > 100, "{taken} taken, {told} told");
}

#[test]
fn a_record_is_in_words_exactly_where_they_give_its_bytes() {
    let mut well_formed = vec![0; RECORD_BYTES];
    well_formed[0] = 5;
    well_formed[4] = 9;
    well_formed[8] = 7;
    let line = |records: &[u8]| {
        let tape = Tape {
            calendar: None,
            records: records.to_vec(),
        };
        decode(&tape).unwrap().lines().last().unwrap().to_string()
    };
    assert_eq!(line(&well_formed), "permit premise 7 reference 9");
    for place in 0..RECORD_BYTES {
        let mut record = well_formed.clone();
        record[place] ^= 64;
        let in_words = (4..16).contains(&place);
        assert_eq!(!line(&record).starts_with("raw"), in_words, "byte {place}");
    }
    assert!(line(&well_formed[..23]).starts_with("raw"));
}

/// Every byte of a retailer's field is in words; of a counter's only the first four.
#[test]
fn long_retailers_are_in_words_and_long_counters_are_not() {
    for (kind, detail, widest) in [(1, 0, 24), (3, 4, 24), (8, 0, 24), (12, 2, 24), (11, 0, 20)] {
        for place in 16..RECORD_BYTES {
            let mut records = vec![0; RECORD_BYTES];
            (records[0], records[1], records[16]) = (kind, detail, 1);
            records[place] ^= 64;
            let tape = Tape {
                calendar: None,
                records,
            };
            assert_inverse(&tape);
            let text = decode(&tape).unwrap();
            assert_eq!(text.contains("raw"), place >= widest, "{text}");
        }
    }
}

#[test]
fn a_calendar_longer_than_the_days_there_are_has_no_text() {
    let tape = Tape {
        calendar: Some(vec![0; CALENDAR_DAYS + 1]),
        records: Vec::new(),
    };
    let wrong = "the calendar has 4097 bytes; expected at most 4096";
    assert_eq!(decode(&tape), Err(wrong.to_string()));
}
