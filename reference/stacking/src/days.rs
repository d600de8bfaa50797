//! Days and the calendar: kinds of day, the switch date, the window.
//!
//! Calendar days and Retail Business Days are two units. Each has its own type,
//! so that neither can be added to, or compared with, the other.

/// The last day there is; days are 0 to 4,095.
pub const LAST_DAY: u16 = 4_095;

/// How "no day" is written.
pub const NO_DAY: u16 = 4_096;

/// As many bytes of a calendar as there are days.
pub const CALENDAR_BYTES: usize = 4_096;

/// Kind 0: a Retail Business Day.
const BUSINESS_DAY: u8 = 0;

/// Kind 1: another day on which switches start.
const OTHER_SWITCH_DAY: u8 = 1;

/// Kind 2: a Sunday or ERCOT holiday.
const HOLIDAY: u8 = 2;

/// A number of Retail Business Days.
#[derive(Clone, Copy, Debug, Default, PartialEq, Eq, PartialOrd, Ord)]
pub struct BusinessDays(pub u8);

/// A number of calendar days.
#[derive(Clone, Copy, Debug, Default, PartialEq, Eq, PartialOrd, Ord)]
pub struct CalendarDays(pub u8);

/// How wide a premise's window is where its create does not say (02, change 2).
pub const USUAL_WINDOW: BusinessDays = BusinessDays(2);

/// A window is at least this wide.
pub const NARROWEST_WINDOW: BusinessDays = BusinessDays(1);

/// A window is at most this wide.
pub const WIDEST_WINDOW: BusinessDays = BusinessDays(5);

/// Is this a day, and not "no day" or a number beyond?
pub fn is_day(day: u16) -> bool {
    day <= LAST_DAY
}

/// The kind of a day: its byte if that is 0 or 1, else 2.
fn kind_of(calendar: &[u8], day: u16) -> u8 {
    match calendar.get(usize::from(day)) {
        Some(&byte) if byte == BUSINESS_DAY || byte == OTHER_SWITCH_DAY => byte,
        _ => HOLIDAY,
    }
}

/// Is `day` of kind 0?
pub fn is_business_day(calendar: &[u8], day: u16) -> bool {
    kind_of(calendar, day) == BUSINESS_DAY
}

/// First available switch date: the first day of kind 0 or 1 from `today` on.
pub fn switch_date(calendar: &[u8], today: u16) -> Option<u16> {
    (today..=LAST_DAY).find(|&day| kind_of(calendar, day) != HOLIDAY)
}

/// In window: a day, and at most as many business days from `today` up to it, that
/// day not counted, as the window is wide.
pub fn in_window(calendar: &[u8], today: u16, window: BusinessDays, day: u16) -> bool {
    let business_days = (today..day).filter(|&between| is_business_day(calendar, between));
    is_day(day) && business_days.count() <= usize::from(window.0)
}
