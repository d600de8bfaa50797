//! The answer to a record: the rows of document 01's table and document 02's, by name.

/// 0 for a record that is taken, else the number of the first row it meets.
#[derive(Clone, Copy, Debug, PartialEq, Eq)]
#[repr(u8)]
pub enum Answer {
    Accepted = 0,
    /// The notice buffer is under 24,576 bytes.
    BufferTooShort = 1,
    BookNotWellKept = 2,
    /// Length, kind, detail or a field out of range, or an unused field not zero.
    Malformed = 3,
    NoSuchPremise = 4,
    PremiseHeld = 5,
    /// 64 files are held.
    BookFull = 6,
    /// A premise with an open order is not retired.
    OpenOrderHeld = 7,
    /// The new order's reference is held in the file.
    ReferenceHeld = 8,
    /// The requested day is too far ahead of today or too far back.
    RequestedDayTooFar = 9,
    NoSwitchDate = 10,
    NotFirstIn = 11,
    /// All 8 places are taken by open orders.
    EightOpenOrders = 12,
    /// No such reference, or on a cancel another retailer's.
    NoSuchOrder = 13,
    /// The order's status or kind does not take this record.
    NotTaken = 14,
    NotTheNextDay = 15,
    /// The date change's counter is not above the one that the order keeps.
    CounterNotAbove = 16,
    /// The order whose date is to change is Scheduled and in window.
    DateChangeInWindow = 17,
    /// The agreement to be deleted is not the named retailer's.
    AgreementOfAnother = 18,
    /// The new order's retailer has 4 or more open orders at the premise.
    FourOpenOrdersOfRetailer = 26,
}

impl Answer {
    /// Every answer, in the order of its number.
    pub const ALL: [Answer; 20] = [
        Answer::Accepted,
        Answer::BufferTooShort,
        Answer::BookNotWellKept,
        Answer::Malformed,
        Answer::NoSuchPremise,
        Answer::PremiseHeld,
        Answer::BookFull,
        Answer::OpenOrderHeld,
        Answer::ReferenceHeld,
        Answer::RequestedDayTooFar,
        Answer::NoSwitchDate,
        Answer::NotFirstIn,
        Answer::EightOpenOrders,
        Answer::NoSuchOrder,
        Answer::NotTaken,
        Answer::NotTheNextDay,
        Answer::CounterNotAbove,
        Answer::DateChangeInWindow,
        Answer::AgreementOfAnother,
        Answer::FourOpenOrdersOfRetailer,
    ];

    /// The documents' number.
    pub fn number(self) -> u8 {
        self as u8
    }
}

/// What a call with many records returns (02, change 5); the records' own answers
/// stand in the buffer that it is lent for them.
#[derive(Clone, Copy, Debug, PartialEq, Eq)]
#[repr(u8)]
pub enum BlockAnswer {
    /// The stretch was played as far as there was room, be it not at all.
    Played = 0,
    /// The answer buffer has fewer bytes than the stretch has whole records.
    AnswersTooShort = 19,
}

impl BlockAnswer {
    /// The document's number.
    pub fn number(self) -> u8 {
        self as u8
    }
}

/// Ends a step with a row that is met.
pub fn refuse_if(met: bool, row: Answer) -> Result<(), Answer> {
    if met {
        Err(row)
    } else {
        Ok(())
    }
}
