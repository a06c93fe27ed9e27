//! Prints terms and what the report must print of them, for a program of the repository to replay.
//!
//! A line is a letter and what belongs to it, to the line's end.
//!
//! - `#`: what the case is about. `N`: how often the next part is meant, where it is not once.
//! - `T`: a part of the text.
//! - `X`: a part of the output, from its beginning on; all of it where it is short.
//! - `S`: the output's checksum by POSIX `cksum`. `=`: its length. With this a case ends.
//!
//! In a part `T` stands for a tab, as in document 01, and `$` for the letter T; `stored.rs` has the few others.
//!
//! The outputs are those of the plain report in `src/paper/report.rs`. Of the short cases each line is also written by hand beside it,
//! and what the plain listing program prints of the same images must say the same: `held.rs`, which also tries sums that are full.

#[path = "terms/held.rs"]
mod held;
#[path = "terms/images.rs"]
mod images;
#[path = "terms/large.rs"]
mod large;
#[path = "terms/malformed.rs"]
mod malformed;
#[path = "terms/parted.rs"]
mod parted;
#[path = "terms/stored.rs"]
mod stored;
#[path = "lists/sum.rs"]
mod sum;

use stored::Case;

fn main() {
    compare::paper::check_widths();
    compare::paper::flow::check_table();
    held::full();
    let cases: Vec<Case> = [
        images::cases(),
        malformed::cases(),
        parted::cases(),
        large::cases(),
    ]
    .concat();
    for case in &cases {
        held::case(case);
        print!("{}", case.lines());
    }
    eprintln!("{} terms, made by 'compare/run --terms SRC'", cases.len());
}
