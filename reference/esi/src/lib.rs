//! The directory of ESI IDs, written from document 02, change 8, alone: which
//! premise number an ESI ID stands for.
//!
//! `entry` is one record and the rules that it can break by itself, `directory`
//! the whole and its look-up, `text` a directory as text and back, `sample`
//! random directories and texts for the tests and the comparison.

#![forbid(unsafe_code)]

pub mod directory;
pub mod entry;
pub mod sample;
pub mod text;
