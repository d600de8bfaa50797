//! The tests of the second program's converter, from document 02, change 9.

mod conversions;
mod program;
