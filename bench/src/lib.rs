//! What the proved programs are timed against: the second program made fast.
//! The second program itself is plain; held against it a slow program would
//! look good. Here are its record call with and without row 2's test and its call
//! with many records, with everything done for speed, and the tapes that are timed.

#![forbid(unsafe_code)]

pub mod agreement;
pub mod book;
pub mod evaluation;
pub mod tapes;
pub mod waiting;
pub mod well_kept;
pub mod window;
