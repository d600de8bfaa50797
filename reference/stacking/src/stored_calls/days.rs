//! Days: the switch date, the window, whether a day counts.

use super::*;

pub fn calls() -> Vec<Stored> {
    let empty = file(&[]);
    let switch = new_order(1, kind::STANDARD_SWITCH, 0);
    let one = |today| book(today, &[empty]);
    vec![
        stored("the switch date may be today", &[empty], switch),
        stored("a switch starts on a day of kind 1", &[empty], switch)
            .with_calendar(calendar_with(&[(10, 2), (11, 1)])),
        stored("bytes above 1 are holidays", &[empty], switch).with_calendar(calendar_with(&[
            (10, 2),
            (11, 3),
            (12, 255),
        ])),
        stored("no switch date past the calendar", &[empty], switch).with_calendar(vec![0; 10]),
        stored("a switch date on the calendar's last day", &[empty], switch)
            .with_calendar([vec![2; 10], vec![0]].concat()),
        on_book("day 4,095 may be the switch date", one(4_095), switch)
            .with_calendar(vec![0; 4_096]),
        on_book("no switch date past day 4,095", one(4_090), switch)
            .with_calendar([vec![2; 4_096], vec![0; 4]].concat()),
        stored("today counts if it is a business day", &[empty], move_in()),
        stored("a day of kind 1 is no business day", &[empty], move_in())
            .with_calendar(calendar_with(&[(10, 1)])),
        stored("a holiday is no business day", &[empty], move_in())
            .with_calendar(calendar_with(&[(10, 2)])),
        window("two business days before: in window", 12, business_days()),
        window(
            "three business days before: not in window",
            13,
            business_days(),
        ),
        window(
            "other days between do not count",
            14,
            calendar_with(&[(11, 1), (12, 2)]),
        ),
        window(
            "business days behind other days count",
            15,
            calendar_with(&[(11, 1), (12, 2)]),
        ),
        window("today itself is in window", 10, business_days()),
        window("a day before today is in window", 4, business_days()),
        window("without a calendar every day is in window", 4_095, vec![]),
    ]
}

fn move_in() -> [u8; 24] {
    new_order(1, kind::MOVE_IN, 11)
}

/// In window the retailer is told of the order that is now Scheduled.
fn window(name: &'static str, day: u16, calendar: Vec<u8>) -> Stored {
    let held = file(&[in_review(1, kind::MOVE_IN)]);
    stored(name, &[held], schedule(1, day)).with_calendar(calendar)
}
