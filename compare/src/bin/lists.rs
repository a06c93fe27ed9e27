//! Prints what the listing program and the program for game files are given and what they must print, for a program of the
//! repository to replay.
//!
//! A line is a letter and what belongs to it, to the line's end.
//!
//! - `#`: what the case is about. `W`: it is in wrapping mode. `N`: how often the next part is meant, where it is not
//!   once.
//! - `T`: a part of the input. `B`, `M`: a part of an image and of its marks, in hex. `G`: a part of the words of the
//!   program for game files, each of which is ended by byte 0.
//! - `X`: a part of the output, from its beginning on; all of it where it is short.
//! - `S`: the output's checksum by POSIX `cksum`. `L`: the first bad line of the input, or 0.
//! - `=`: the length of the listing program's output. `-`, `+`, `?`: the length of a listing of the image and
//!   the marks, without arrivals, with them, and without a choice. `d`, `m`: the length of the listing, or of the message,
//!   that the program for game files prints of the image by the words. With one of these a case ends.
//!
//! In a text or words `T` stands for a tab, as in document 01, and `|` for byte 10; `stored.rs` has the few others.
//!
//! The outputs are those of the plain programs by document 01 and by `crates/dis_text/specs` in `src/paper/`. What the original has of
//! them, it must have alike: `held.rs`.

#[path = "lists/dis.rs"]
mod dis;
#[path = "lists/game.rs"]
mod game;
#[path = "lists/held.rs"]
mod held;
#[path = "lists/inputs.rs"]
mod inputs;
#[path = "lists/large.rs"]
mod large;
#[path = "lists/listings.rs"]
mod listings;
#[path = "lists/marked.rs"]
mod marked;
#[path = "lists/stored.rs"]
mod stored;
#[path = "lists/sum.rs"]
mod sum;
#[path = "lists/wrapped.rs"]
mod wrapped;

use stored::Case;

fn main() {
    compare::paper::check_widths();
    compare::paper::flow::check_table();
    let cases: Vec<Case> = [
        inputs::cases(),
        listings::cases(),
        marked::cases(),
        vec![game::case()],
        large::cases(),
        wrapped::cases(),
        dis::cases(),
    ]
    .concat();
    for case in &cases {
        held::case(case);
        print!("{}", case.lines());
    }
    eprintln!(
        "{} listings, made by 'compare/run --lists SRC'",
        cases.len()
    );
}
