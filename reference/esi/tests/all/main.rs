//! The tests of the second program's directory, in one program: a topic a
//! module.

mod look_ups;
mod programs;
mod rules;
mod samples;
mod texts;
