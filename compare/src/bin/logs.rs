//! Prints logs and what replaying them must answer and leave, for a program of the repository to replay.
//!
//! A line is a letter and what belongs to it, to the line's end. Numbers have eight hex digits, counts sixteen.
//!
//! - `#`: what the case is about. `W`: it is replayed in wrapping mode.
//! - `T`: a line of the log, which byte 10 ends. `H`: bytes of the log in hex.
//! - `N`: the image's length. `K`, `C`: how many marks and counts are lent, where that is not the length.
//! - `B`, `M`: a part of the image and of the marks, as a position and bytes in hex; what no part tells is zero.
//! - `E`: an entry.
//! - `V`: a position and its count before, where that is not 7. `X`: a position and its count once the lines before
//!   the first bad one are taken, where that is another than before.
//! - `w`: accepted, with the lines, the interrupts and the free moves. The refusals with their value: `l` is 1, `s` 2,
//!   `d` 6, `r` 11, `m` 18, `u` 19, `f` 20 and `o` 21. With one of these a case ends.
//!
//! The answers are those of the plain replay in `src/paper/replay.rs`.

#[path = "logs/full.rs"]
mod full;
#[path = "logs/lent.rs"]
mod lent;
#[path = "logs/lines.rs"]
mod lines;
#[path = "logs/moves.rs"]
mod moves;
#[path = "logs/order.rs"]
mod order;
#[path = "logs/stored.rs"]
mod stored;
#[path = "logs/units.rs"]
mod units;
#[path = "logs/wrapped.rs"]
mod wrapped;

use stored::Case;

fn main() {
    compare::paper::check_widths();
    compare::paper::flow::check_table();
    let cases: Vec<Case> = [
        moves::cases(),
        lines::cases(),
        order::cases(),
        full::cases(),
        lent::cases(),
        wrapped::cases(),
    ]
    .concat();
    for case in &cases {
        print!("{}", case.lines());
    }
    eprintln!("{} cases, made by 'compare/run --logs SRC'", cases.len());
}
