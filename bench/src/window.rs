//! The days in window, looked for once for all orders.

use stacking::days::{is_business_day, BusinessDays, LAST_DAY, WIDEST_WINDOW};

/// Today, and the last day that is in window from it.
#[derive(Clone, Copy, Debug)]
pub struct Window {
    /// T.
    pub today: u16,
    last: u16,
}

impl Window {
    /// With a width of two business days the third one from `today` on is the
    /// last day in window: it has two before it, and every later day has more.
    pub fn new(calendar: &[u8], today: u16, width: BusinessDays) -> Window {
        let last = business_days(calendar, today)
            .nth(usize::from(width.0))
            .unwrap_or(LAST_DAY);
        Window { today, last }
    }

    /// Is `day` a day, and in window? "No day" is above every last day.
    pub fn holds(&self, day: u16) -> bool {
        day <= self.last
    }
}

/// The windows of every width, found in one walk over the days.
#[derive(Clone, Copy, Debug)]
pub struct Windows {
    today: u16,
    /// By width, from 0 on.
    lasts: [u16; 1 + WIDEST_WINDOW.0 as usize],
}

impl Windows {
    pub fn new(calendar: &[u8], today: u16) -> Windows {
        let mut lasts = [LAST_DAY; 1 + WIDEST_WINDOW.0 as usize];
        for (last, day) in lasts.iter_mut().zip(business_days(calendar, today)) {
            *last = day;
        }
        Windows { today, lasts }
    }

    /// The window of a width that a well-kept file has.
    pub fn of(&self, width: BusinessDays) -> Window {
        Window {
            today: self.today,
            last: self.lasts[usize::from(width.0)],
        }
    }
}

fn business_days(calendar: &[u8], today: u16) -> impl Iterator<Item = u16> + '_ {
    (today..=LAST_DAY).filter(move |&day| is_business_day(calendar, day))
}
