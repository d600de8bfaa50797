//! The tests of the second program, in one program: a topic a module.

mod agreement;
mod block_calls;
mod both_reads;
mod date_change;
mod demand_three;
mod long_retailers;
mod one_end;
mod programs;
mod record_call;
mod retailer_share;
mod row_three;
mod row_two;
mod rows;
mod running;
mod set_pieces;
mod single_calls;
mod steps;
mod support;
mod tape;
mod waiting;
mod window;
