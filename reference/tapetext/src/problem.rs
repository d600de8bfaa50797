//! What is wrong with a text, and where.

use std::fmt;

/// One bad line: its number, what is wrong with it and what was expected.
#[derive(Clone, Debug, PartialEq, Eq)]
pub struct Problem {
    /// Counted from 1; a text that ends too early has its problem one line
    /// past its end.
    pub line: usize,
    pub wrong: String,
    pub expected: String,
}

impl fmt::Display for Problem {
    fn fmt(&self, f: &mut fmt::Formatter<'_>) -> fmt::Result {
        write!(
            f,
            "line {}: {}; expected {}",
            self.line, self.wrong, self.expected
        )
    }
}

/// What is wrong and what was expected, before the line number is known.
#[derive(Clone, Debug, PartialEq, Eq)]
pub(crate) struct Fault {
    pub wrong: String,
    pub expected: String,
}

impl Fault {
    pub fn new(wrong: impl Into<String>, expected: impl Into<String>) -> Self {
        Fault {
            wrong: wrong.into(),
            expected: expected.into(),
        }
    }

    pub fn at(self, line: usize) -> Problem {
        Problem {
            line,
            wrong: self.wrong,
            expected: self.expected,
        }
    }
}
