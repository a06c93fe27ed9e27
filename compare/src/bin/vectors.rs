//! Prints answers of the original, of the plain engine that sweeps, of both in wrapping mode and with pins, one case a line, for a
//! program of the repository to replay.
//!
//! A line is a letter for the call and eleven fields: five inputs, the number of the answer and its
//! five values. A field is a space, a sign and ten hexadecimal digits, so all lines are of one length.
//!
//! - `D`: the number of bytes, three bytes (0 past that number), 0.
//! - `E`: a first byte that names the form, three fields, the length of the room. The values are the
//!   number of bytes written, then three bytes (0 past that number) as they stand in the room, then 0.
//! - `R`: a first byte that names the form, three operands, the base.
//! - `T`: a first byte that names the form, three fields, the position. The values are the number of
//!   targets and the targets.
//! - `G`: a whole trace of an image of up to ten bytes: its length, two numbers of five bytes (0 past its
//!   length), two entries. The values are three of the run's, then the order list and the marks, of ten
//!   each, as hexadecimal digits; before, the list is all 15 and the marks are all 9.
//! - `W`: sweeps, given and told as a whole trace is. The values are the sweeps, the steps, 0, the order list, which is
//!   lent to no sweep and stays, and the marks.
//! - `O`, `S`, `P`: a whole trace, sweeps, and one step over the end of memory, given and told in the same way. The image
//!   has 65,536 bytes, all Ret but the ten given, which are its last five and then its first five. So are the ten
//!   positions of the order list and of the marks. The step is at the first entry, after a start from both.
//! - `N`, `U`: a whole trace and sweeps with a pin, given and told in the same way, but for the second entry, which is the
//!   pin. The entry and the pin are each told twice.
//! - `r`, `t`, `g`, `w`, `o`, `s`, `p`, `n`, `u`: the same as the large letter, in wrapping mode.
//!
//! The cases are those that the original answers: no register out of range, no field that encode is to
//! refuse, no room too short, no base above 65,536, no target below 0. Of a trace it tells how it ends,
//! the first visits and the traced set; what was noted and not taken up is document 01's. It does not sweep: that is
//! document 02's, by the plain engine, and what it traced is compared where no B8 0D 21 stands. So is wrapping mode, and
//! beside its lines those of the same cases unwrapped, some of which the original does not answer.

#[path = "vectors/decoded.rs"]
mod decoded;
#[path = "vectors/encoded.rs"]
mod encoded;
#[path = "vectors/packed.rs"]
mod packed;
#[path = "vectors/pinned.rs"]
mod pinned;
#[path = "vectors/resolved.rs"]
mod resolved;
#[path = "vectors/swept.rs"]
mod swept;
#[path = "vectors/targeted.rs"]
mod targeted;
#[path = "vectors/traced.rs"]
mod traced;
#[path = "vectors/wrapped.rs"]
mod wrapped;

use compare::answer::Answer;
use compare::paper;
use std::collections::HashSet;
use std::fmt::Write;

/// The lines, in the order of the calls and without repeats.
#[derive(Default)]
struct Lines {
    text: String,
    seen: HashSet<String>,
}

impl Lines {
    fn case(&mut self, call: char, inputs: [i64; 5], answer: Answer) {
        let mut line = String::from(call);
        let number = [i64::from(answer.number)];
        for field in [&inputs[..], &number, &answer.values].concat() {
            let sign = if field < 0 { '-' } else { '+' };
            write!(line, " {sign}{:010X}", field.abs()).expect("a string takes any text");
        }
        assert!(line.len() == 133, "a field of more than ten digits");
        line.push('\n');
        if self.seen.insert(line.clone()) {
            self.text += &line;
        }
    }
}

fn main() {
    paper::check_widths();
    let mut lines = Lines::default();
    decoded::cases(&mut lines);
    encoded::cases(&mut lines);
    resolved::cases(&mut lines);
    targeted::cases(&mut lines);
    traced::cases(&mut lines);
    swept::cases(&mut lines);
    wrapped::cases(&mut lines);
    pinned::cases(&mut lines);
    print!("{}", lines.text);
    let count = lines.seen.len();
    eprintln!("{count} answers, made by 'compare/run --vectors SRC'");
}
