//! Each kind of move, in both modes: to a target, to an entry, free, and not allowed.

use super::stored::{Case, log};
use super::units::{BRANCHING, CALLING, EXAMPLE, FLASHING, INTERRUPTED, JUMPING, MODES, word};
use compare::answer::Answer;

/// What it is about, the image, the entries of the trace, those that are lent, the lines' positions, and the answer.
type Move = (
    &'static str,
    &'static [u8],
    &'static [u32],
    &'static [u32],
    &'static [usize],
    (u32, &'static [i64]),
);

const DONE: u32 = Answer::DONE;
const FORBIDDEN: u32 = Answer::FORBIDDEN_MOVE;

#[rustfmt::skip]
const MOVES: [Move; 48] = [
    ("no lines", &EXAMPLE, &[0], &[0], &[], (DONE, &[0, 0, 0])),
    ("no lines and no image", &[], &[], &[], &[], (DONE, &[0, 0, 0])),
    ("one line, no move", &EXAMPLE, &[0], &[0], &[0], (DONE, &[1, 0, 0])),
    ("one line at no entry", &EXAMPLE, &[0], &[0], &[5], (DONE, &[1, 0, 0])),
    ("one line, no entries lent", &EXAMPLE, &[0], &[], &[7], (DONE, &[1, 0, 0])),
    ("a Br to its target", &EXAMPLE, &[0], &[0], &[0, 4], (DONE, &[2, 0, 0])),
    ("an Inc to the next", &EXAMPLE, &[0], &[0], &[4, 5], (DONE, &[2, 0, 0])),
    ("a Bz to the next", &EXAMPLE, &[0], &[0], &[5, 7], (DONE, &[2, 0, 0])),
    ("a Bz to its target, an entry: no interrupt", &EXAMPLE, &[0], &[0], &[5, 0], (DONE, &[2, 0, 0])),
    ("three turns of a loop", &EXAMPLE, &[0], &[0], &[0, 4, 5, 0, 4, 5, 0, 4, 5, 7], (DONE, &[10, 0, 0])),
    ("an interrupt after a Br", &EXAMPLE, &[0], &[0], &[0, 0], (DONE, &[2, 1, 0])),
    ("an interrupt after an Inc", &EXAMPLE, &[0], &[0], &[4, 0, 4], (DONE, &[3, 1, 0])),
    ("a Ret to any traced position", &EXAMPLE, &[0], &[0], &[7, 5], (DONE, &[2, 0, 1])),
    ("a Ret to itself", &EXAMPLE, &[0], &[0], &[7, 7, 7], (DONE, &[3, 0, 2])),
    ("a Ret to an entry: an interrupt", &EXAMPLE, &[0], &[0], &[7, 0], (DONE, &[2, 1, 0])),
    ("a Ret to what is no entry now", &EXAMPLE, &[0], &[], &[7, 0], (DONE, &[2, 0, 1])),
    ("a Br to its next", &EXAMPLE, &[0], &[0], &[0, 5], (FORBIDDEN, &[2])),
    ("a Br to itself, no entry", &EXAMPLE, &[0], &[], &[0, 0], (FORBIDDEN, &[2])),
    ("an Inc over the next", &EXAMPLE, &[0], &[0], &[4, 7], (FORBIDDEN, &[2])),
    ("a Bz to itself", &EXAMPLE, &[0], &[0], &[5, 5], (FORBIDDEN, &[2])),
    ("a move not allowed in the third line", &EXAMPLE, &[0], &[0], &[0, 4, 7, 5], (FORBIDDEN, &[3])),
    ("a call, a return and a jump back", &CALLING, &[0], &[0], &[0, 6, 7, 3, 0], (DONE, &[5, 0, 1])),
    ("a call to an entry: no interrupt", &CALLING, &[0, 6], &[0, 6], &[0, 6, 7, 3], (DONE, &[4, 0, 1])),
    ("a call's next as its target", &CALLING, &[0], &[0], &[0, 3], (DONE, &[2, 0, 0])),
    ("a return to an entry after a call", &CALLING, &[0, 6], &[0, 6], &[0, 6, 7, 6, 7, 0], (DONE, &[6, 2, 0])),
    ("a Br to where a call leads", &CALLING, &[0], &[0], &[3, 6], (FORBIDDEN, &[2])),
    ("a Br to where a call leads, an entry", &CALLING, &[0], &[0, 6], &[3, 6], (DONE, &[2, 1, 0])),
    ("an interrupt and a Reti", &INTERRUPTED, &[0, 3], &[0, 3], &[0, 3, 4, 1, 0], (DONE, &[5, 1, 1])),
    ("a Reti to an entry", &INTERRUPTED, &[0, 3], &[0, 3], &[4, 0, 1], (DONE, &[3, 1, 0])),
    ("an interrupt within an interrupt", &INTERRUPTED, &[0, 3], &[0, 3], &[0, 3, 3, 4, 4, 1], (DONE, &[6, 2, 2])),
    ("no interrupt without its entry", &INTERRUPTED, &[0, 3], &[0], &[0, 3], (FORBIDDEN, &[2])),
    ("an entry twice in the list", &INTERRUPTED, &[0, 3], &[3, 0, 3, 3], &[1, 3], (DONE, &[2, 1, 0])),
    ("entries outside among them", &INTERRUPTED, &[0, 3], &[65_539, 65_536, 5, 3, u32::MAX], &[1, 3], (DONE, &[2, 1, 0])),
    ("an entry 65,536 higher is none", &INTERRUPTED, &[0, 3], &[65_539, 65_536], &[1, 3], (FORBIDDEN, &[2])),
    ("a Jmpf that is not followed, to where it leads", &FLASHING, &[0, 6], &[0], &[0, 2, 6, 7], (DONE, &[4, 0, 1])),
    ("a Jmpf that is not followed, to any position", &FLASHING, &[0, 6], &[0], &[2, 7], (DONE, &[2, 0, 1])),
    ("a Jmpf that is not followed, to an entry", &FLASHING, &[0, 6], &[0, 6], &[2, 6], (DONE, &[2, 1, 0])),
    ("a Jmpf after B8 0D that was followed, to its target", &FLASHING, &[2, 0], &[], &[0, 2, 6, 7], (DONE, &[4, 0, 0])),
    ("a Jmpf after B8 0D that was followed, elsewhere", &FLASHING, &[2, 0], &[], &[0, 2, 7], (FORBIDDEN, &[3])),
    ("all jumps to their targets", &JUMPING, &[0], &[0], &[0, 4, 8, 12, 15], (DONE, &[5, 0, 0])),
    ("a Jmp elsewhere", &JUMPING, &[0], &[0], &[0, 8], (FORBIDDEN, &[2])),
    ("a Jmpf elsewhere", &JUMPING, &[0], &[0], &[0, 4, 12], (FORBIDDEN, &[3])),
    ("a Brf elsewhere", &JUMPING, &[0], &[0], &[8, 15], (FORBIDDEN, &[2])),
    ("a Jmpf back to itself", &JUMPING, &[0], &[0], &[4, 4], (FORBIDDEN, &[2])),
    ("a Call, a Jmp, a Ret", &BRANCHING, &[0], &[0], &[0, 9, 7, 8, 2, 11], (FORBIDDEN, &[6])),
    ("a Callr, a Ret, a Bz both ways", &BRANCHING, &[0], &[0], &[2, 5, 7, 8, 5, 11], (DONE, &[6, 0, 1])),
    ("a Call's next", &BRANCHING, &[0], &[0], &[0, 2], (DONE, &[2, 0, 0])),
    ("a Call elsewhere", &BRANCHING, &[0], &[0], &[0, 5], (FORBIDDEN, &[2])),
];

pub fn cases() -> Vec<Case> {
    let both = |(about, image, traced, lent, positions, (number, values)): &Move| {
        MODES.map(|mode| {
            let about = format!("{about}, {}", word(mode));
            let case = Case::new(&about, mode, image, traced, &log(positions));
            case.entered(lent).answers(*number, values)
        })
    };
    MOVES.iter().flat_map(both).collect()
}
