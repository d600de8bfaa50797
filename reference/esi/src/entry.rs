//! One record of a directory: 24 bytes. Bytes 0 to 10 are the ESI ID in packed
//! decimal, byte 11 its digit count, 12 to 19 the premise number, low byte
//! first, 20 to 23 zero.

/// The bytes of a record.
pub const RECORD_BYTES: usize = 24;
/// The bytes of an ESI ID with its count.
pub const ID_BYTES: usize = 12;
/// An ESI ID has one of these numbers of digits.
pub const DIGIT_COUNTS: [usize; 2] = [17, 22];

/// The place of the digit count, and the bytes before it.
const COUNT_AT: usize = 11;
/// A half that no digit uses.
const UNUSED: u8 = 15;

/// An ESI ID as a record has it: packed digits and their count.
pub type Id = [u8; ID_BYTES];

/// What a record says.
#[derive(Clone, Copy, Debug, PartialEq, Eq)]
pub struct Entry {
    pub id: Id,
    pub premise: u64,
}

/// A rule that a directory can break.
#[derive(Clone, Copy, Debug, PartialEq, Eq, Hash)]
pub enum Rule {
    /// The length is a multiple of 24.
    Length,
    /// The digit count is 17 or 22.
    Count,
    /// Each used half is 0 to 9.
    UsedHalf,
    /// With 17 digits the unused halves are 15.
    UnusedHalf,
    /// The premise number is not 0.
    PremiseGiven,
    /// Bytes 20 to 23 are zero.
    LastBytes,
    /// No ESI ID stands twice.
    IdOnce,
    /// No premise number stands twice.
    PremiseOnce,
}

/// The half of packed bytes at a place: the first digit of a byte is in its
/// high half.
fn half(bytes: &[u8], place: usize) -> u8 {
    let byte = bytes[place / 2];
    if place % 2 == 0 {
        byte >> 4
    } else {
        byte & 15
    }
}

/// The ESI ID that a text writes, if it is 17 or 22 ASCII digits.
pub fn id_of(text: &[u8]) -> Option<Id> {
    if !DIGIT_COUNTS.contains(&text.len()) || !text.iter().all(u8::is_ascii_digit) {
        return None;
    }
    let digit = |place: usize| text.get(place).map_or(UNUSED, |byte| byte - b'0');
    let mut id = [0; ID_BYTES];
    for (place, byte) in id[..COUNT_AT].iter_mut().enumerate() {
        *byte = (digit(2 * place) << 4) | digit(2 * place + 1);
    }
    id[COUNT_AT] = text.len() as u8;
    Some(id)
}

/// The digits of an ESI ID as text.
pub fn text_of(id: &Id) -> String {
    let count = usize::from(id[COUNT_AT]);
    (0..count)
        .map(|place| (b'0' + half(id, place)) as char)
        .collect()
}

impl Entry {
    /// Reads a record, or tells the first rule that it breaks by itself.
    pub fn read(record: &[u8; RECORD_BYTES]) -> Result<Entry, Rule> {
        let count = usize::from(record[COUNT_AT]);
        if !DIGIT_COUNTS.contains(&count) {
            return Err(Rule::Count);
        }
        if (0..count).any(|place| half(record, place) > 9) {
            return Err(Rule::UsedHalf);
        }
        if (count..2 * COUNT_AT).any(|place| half(record, place) != UNUSED) {
            return Err(Rule::UnusedHalf);
        }
        let premise = (0..8).map(|k| u64::from(record[12 + k]) << (8 * k)).sum();
        if premise == 0 {
            return Err(Rule::PremiseGiven);
        }
        if record[20..] != [0; 4] {
            return Err(Rule::LastBytes);
        }
        let mut id = [0; ID_BYTES];
        id.copy_from_slice(&record[..ID_BYTES]);
        Ok(Entry { id, premise })
    }

    /// The record's bytes.
    pub fn bytes(&self) -> [u8; RECORD_BYTES] {
        let mut record = [0; RECORD_BYTES];
        record[..ID_BYTES].copy_from_slice(&self.id);
        record[12..20].copy_from_slice(&self.premise.to_le_bytes());
        record
    }
}
