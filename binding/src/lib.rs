//! Pottagewing for Rust: the calls of `include/pottagewing.h`, in safe functions.
//!
//! Each call answers what it was asked for, or a [`Refusal`], whose numbers and values are the header's, which says what each call does and
//! in which order it refuses. What the header calls a room is a slice that is lent for writing; where it is too short the refusal is
//! [`Refusal::NoRoom`], and tells how much is needed. No call keeps state, so all may be made from any thread. [`listing`] needs a stack of
//! 1 MiB, which is less than `std::thread` gives.
//!
//! [`numbers`] has the same calls with their numbers as they stand, for those who test the library.
//!
//! To build what calls it, name the folder of `libpottagewing.a` in PW_ARCHIVE.

mod answer;
mod codec;
mod declared;
mod forms;
mod listed;
mod logs;
mod mapped;
mod names;
pub mod numbers;
mod places;
mod tracing;
mod viewing;

pub use answer::{Answer, Refusal};
pub use codec::{Instruction, Targets, decode, encode, resolve, targets};
pub use forms::Form;
pub use listed::{
    Input, code_line, code_line_into, list_text, list_text_into, listing, listing_into, parse,
    parse_into, read_back, report_text, report_text_into, unlist_text, unlist_text_into,
};
pub use logs::{Record, Totals, replay};
pub use mapped::{map_build, map_count, map_first_data, map_test, map_update};
pub use names::*;
pub use places::{Letter, Line, Place};
pub use tracing::{Ended, Ran, Stepped, Swept, run, start, step, sweep};
pub use viewing::{arrivals, data_run, mask, overlaps, target_marks};

/// The version of what is linked: [`VERSION`] where this crate belongs to it.
pub fn version() -> u32 {
    numbers::version()
}
