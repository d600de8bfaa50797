//! A sheet as text: a line for each row, its block, first and last premise, and
//! the two counts where they are not 0. Empty lines and lines that begin with
//! `#` count for nothing.

use crate::row::{read_rows, Row, MOST_ROWS};

const EXAMPLE: &str = "block, first and last premise, as in: 12 1000 1999";

/// The bytes of a sheet from its text, or what is wrong with a line. Any numbers
/// that fit are written: whether a row is sound is for the call to say.
pub fn encode(text: &str) -> Result<Vec<u8>, String> {
    let mut bytes = Vec::new();
    let mut rows = 0;
    for (place, line) in text.lines().enumerate() {
        let line = line.split('#').next().unwrap_or("").trim();
        if line.is_empty() {
            continue;
        }
        let row = row_of(line).map_err(|wrong| format!("line {}: {wrong}", place + 1))?;
        bytes.extend(row.bytes());
        rows += 1;
    }
    if rows > MOST_ROWS {
        return Err(format!("{rows} rows; expected at most {MOST_ROWS}"));
    }
    Ok(bytes)
}

fn row_of(line: &str) -> Result<Row, String> {
    let words: Vec<&str> = line.split_whitespace().collect();
    let (block, first, last, files, dark) = match words[..] {
        [block, first, last] => (block, first, last, "0", "0"),
        [block, first, last, files, dark] => (block, first, last, files, dark),
        _ => {
            return Err(format!(
                "{} words; expected {EXAMPLE}; two counts may follow",
                words.len()
            ))
        }
    };
    Ok(Row {
        block: number(block, u32::MAX.into())? as u32,
        first: number(first, u64::MAX)?,
        last: number(last, u64::MAX)?,
        files: number(files, u32::MAX.into())? as u32,
        dark: number(dark, u32::MAX.into())? as u32,
    })
}

fn number(word: &str, most: u64) -> Result<u64, String> {
    match word.parse() {
        Ok(number) if number <= most => Ok(number),
        _ => Err(format!(
            "{word:?} is no number from 0 to {most}; expected {EXAMPLE}"
        )),
    }
}

/// The text of a sheet's bytes.
pub fn decode(bytes: &[u8]) -> Result<String, String> {
    let line = |row: &Row| match (row.files, row.dark) {
        (0, 0) => format!("{} {} {}\n", row.block, row.first, row.last),
        (files, dark) => format!("{} {} {} {files} {dark}\n", row.block, row.first, row.last),
    };
    Ok(read_rows(bytes)?.iter().map(line).collect())
}
