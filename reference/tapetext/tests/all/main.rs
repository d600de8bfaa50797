//! The tests of readable tapes, in one program: a topic a module.

mod command;
mod document_01;
mod explain;
mod inverse;
mod messages;
