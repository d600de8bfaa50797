//! The stacking book: who supplies which flat in the Texas retail electricity
//! market, kept from one tape of 24-byte records for many premises.
//!
//! This is the second program. It is written from documents 01 and 02 alone and
//! is what the proved program is tested and measured against. Three layers, each
//! using only the one below: days ([`days`]), one premise ([`premise`] and what
//! it is made of), the book ([`book`]).

#![forbid(unsafe_code)]

pub mod agreement;
pub mod answer;
pub mod block_call;
pub mod book;
pub mod book_bytes;
pub mod book_lines;
pub mod clock;
pub mod date_change;
pub mod days;
pub mod evaluation;
pub mod file;
pub mod first_in;
pub mod notice;
pub mod order;
pub mod premise;
pub mod program;
pub mod random;
pub mod record;
pub mod rules;
pub mod sample;
pub mod single_call;
pub mod stored_calls;
pub mod stretch;
pub mod tape;
pub mod waiting;
pub mod well_kept;
