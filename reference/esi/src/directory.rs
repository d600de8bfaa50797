//! A whole directory, and looking a text up in it.

use crate::entry::{id_of, Entry, Id, Rule, RECORD_BYTES};

/// The most bytes that the program takes: 2,730 records.
pub const DIRECTORY_BYTES: usize = 65_520;

pub const FOUND: u8 = 0;
/// The directory breaks a rule.
pub const UNSOUND: u8 = 20;
/// The text is not 17 or 22 digits.
pub const NOT_AN_ID: u8 = 21;
/// No record has it.
pub const NOT_HELD: u8 = 22;

/// The first broken rule that was met, and the record, counted from 0, that
/// breaks it.
#[derive(Clone, Copy, Debug, PartialEq, Eq)]
pub struct Broken {
    pub rule: Rule,
    pub record: usize,
}

/// A directory that breaks no rule.
#[derive(Clone, Debug, PartialEq, Eq)]
pub struct Directory {
    entries: Vec<Entry>,
}

/// What a look-up gives back: the answer's number and the premise number.
pub type LookedUp = (u8, u64);

impl Directory {
    /// Reads a directory, every rule tested; each record is held against all
    /// later ones.
    pub fn read(bytes: &[u8]) -> Result<Directory, Broken> {
        let records = bytes.chunks_exact(RECORD_BYTES);
        if !records.remainder().is_empty() {
            let record = bytes.len() / RECORD_BYTES;
            return Err(Broken {
                rule: Rule::Length,
                record,
            });
        }
        let mut entries = Vec::with_capacity(bytes.len() / RECORD_BYTES);
        for (record, bytes) in records.enumerate() {
            let bytes = bytes.try_into().expect("a chunk is a record long");
            entries.push(Entry::read(bytes).map_err(|rule| Broken { rule, record })?);
        }
        match first_twice(&entries) {
            Some(broken) => Err(broken),
            None => Ok(Directory { entries }),
        }
    }

    pub fn entries(&self) -> &[Entry] {
        &self.entries
    }

    /// Looks a text up.
    pub fn look_up(&self, text: &[u8]) -> LookedUp {
        let Some(id) = id_of(text) else {
            return (NOT_AN_ID, 0);
        };
        match self.premise_of(&id) {
            Some(premise) => (FOUND, premise),
            None => (NOT_HELD, 0),
        }
    }

    fn premise_of(&self, id: &Id) -> Option<u64> {
        let found = self.entries.iter().find(|entry| entry.id == *id);
        found.map(|entry| entry.premise)
    }
}

/// The record that has the ESI ID or the premise number of an earlier one.
fn first_twice(entries: &[Entry]) -> Option<Broken> {
    for (first, entry) in entries.iter().enumerate() {
        for (behind, other) in entries[first + 1..].iter().enumerate() {
            let record = first + 1 + behind;
            if other.id == entry.id {
                return Some(Broken {
                    rule: Rule::IdOnce,
                    record,
                });
            }
            if other.premise == entry.premise {
                return Some(Broken {
                    rule: Rule::PremiseOnce,
                    record,
                });
            }
        }
    }
    None
}

/// Looks a text up in the bytes of a directory, sound or not.
pub fn look_up(directory: &[u8], text: &[u8]) -> LookedUp {
    match Directory::read(directory) {
        Ok(directory) => directory.look_up(text),
        Err(_) => (UNSOUND, 0),
    }
}
