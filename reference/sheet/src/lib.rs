//! The block sheet: how many flats of each block are in the book, and how many
//! of them are dark. Document 02, change 14.
//!
//! This is the second program, written from document 02 alone; the proved one is
//! compared with it.

#![forbid(unsafe_code)]

pub mod fill;
pub mod row;
pub mod sample;
pub mod text;
