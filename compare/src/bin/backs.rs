//! Prints listings and what reading them back must answer and leave, for a program of the repository to replay.
//!
//! A line is a letter and what belongs to it, to the line's end. Numbers have eight hex digits.
//!
//! - `#`: what the case is about. `W`: it is read in wrapping mode.
//! - `T`: a line of the text, which byte 10 ends. `H`: bytes of the text in hex.
//! - `N`: the length lent. `R`, `K`: how long the rooms for the image and for the marks are, where that is not
//!   the length.
//! - `B`, `M`: a part of the image and of the marks that are left, as a position and bytes in hex; what no part
//!   tells is zero up to the length.
//! - `w`: accepted, with the number of lines. The refusals with their value: `l` is 1, `s` 2, `r` 11, `m` 15 and
//!   `p` 16. With one of these a case ends.
//!
//! The answers are those of the plain reader in `src/paper/back.rs`.

#[path = "backs/corrected.rs"]
mod corrected;
#[path = "backs/example.rs"]
mod example;
#[path = "backs/lent.rs"]
mod lent;
#[path = "backs/placed.rs"]
mod placed;
#[path = "backs/spoiled.rs"]
mod spoiled;
#[path = "backs/stored.rs"]
mod stored;
#[path = "backs/wrapped.rs"]
mod wrapped;
#[path = "backs/written.rs"]
mod written;

use stored::Case;

fn main() {
    compare::paper::check_widths();
    compare::paper::flow::check_table();
    let cases: Vec<Case> = [
        written::cases(),
        corrected::cases(),
        spoiled::cases(),
        placed::cases(),
        lent::cases(),
        wrapped::cases(),
    ]
    .concat();
    for case in &cases {
        print!("{}", case.lines());
    }
    eprintln!("{} cases, made by 'compare/run --backs SRC'", cases.len());
}
