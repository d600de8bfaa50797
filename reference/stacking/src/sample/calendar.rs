//! Random calendars.

use crate::days::CALENDAR_BYTES;
use crate::random::Random;

/// A calendar of one of several sorts: all business days, weeks with holidays,
/// any mix of bytes, few business days; some of them cut short.
pub fn calendar(random: &mut Random) -> Vec<u8> {
    let mut bytes = match random.below(8) {
        0 => vec![0; CALENDAR_BYTES],
        1..=3 => weeks(random),
        4..=5 => mixed(random, &[0, 0, 0, 1, 2, 3, 255]),
        _ => mixed(random, &[0, 1, 1, 1, 2, 2, 2, 2]),
    };
    if random.chance(1, 6) {
        let length = random.pick(&[0, 1, 40, 120, 300, CALENDAR_BYTES - 1]);
        bytes.truncate(length);
    }
    bytes
}

/// Five business days, a Saturday, a Sunday, and now and then a holiday.
fn weeks(random: &mut Random) -> Vec<u8> {
    const WEEK: [u8; 7] = [0, 0, 0, 0, 0, 1, 2];
    let first = random.below(WEEK.len());
    (0..CALENDAR_BYTES)
        .map(|day| {
            if random.chance(1, 40) {
                2
            } else {
                WEEK[(first + day) % WEEK.len()]
            }
        })
        .collect()
}

fn mixed(random: &mut Random, bytes: &[u8]) -> Vec<u8> {
    (0..CALENDAR_BYTES).map(|_| random.pick(bytes)).collect()
}
