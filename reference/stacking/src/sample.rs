//! Random calendars, tapes, books, single calls and block calls, for tests and for comparing
//! programs. Everything is made from a seed and nothing else.

mod block;
mod book;
mod calendar;
mod call;
mod record;
mod shuffle;
mod tape;

pub use block::block_call;
pub use book::{damage, well_kept_book};
pub use calendar::calendar;
pub use call::call;
pub use record::RecordMaker;
pub use shuffle::shuffle;
pub use tape::{tape, TapeOptions};

/// A retailer of most random tapes and books, and one whose number has the same low
/// 32 bits (02, change 7: they are told apart by the others).
const USUAL_RETAILER: u64 = 101;
const ENDS_ALIKE: u64 = USUAL_RETAILER + (1 << 32);

/// A retailer whose low 32 bits are those of "none".
const ENDS_LIKE_NONE: u64 = 1 << 32;
