//! Moves over the end of memory, which only wrapping mode has as targets.

use super::stored::{Case, log};
use super::units::{MODES, ring, word};
use compare::answer::Answer;

const DONE: u32 = Answer::DONE;
const UNTRACED: u32 = Answer::NOT_TRACED;
const FORBIDDEN: u32 = Answer::FORBIDDEN_MOVE;
const LAST: usize = pottagewing::HIGHEST_ADDRESS as usize;

/// A Br to -1, which is FFFF, and at FFFF a Nop.
const BACK: (&[u8], &[u8]) = (&[0x01, 0xFD], &[0x00]);
/// Rets at 0 and 3, and at FFFE a Bz to 65,539.
const OVER: (&[u8], &[u8]) = (&[0xA0, 0x00, 0x00, 0xA0], &[0x80, 0x03]);
/// A Jmpf to 4, a Ret at 4, and at FFFE B8 0D: nothing stands before position 0.
const FLASH: (&[u8], &[u8]) = (&[0x21, 0x00, 0x04, 0x41, 0xA0], &[0xB8, 0x0D]);
/// A Ret at 0 and one at FFFF.
const RETURNS: (&[u8], &[u8]) = (&[0xA0], &[0xA0]);

/// What it is about, the code at both ends, the entries of the trace, those that are lent, the lines' positions, and the
/// answers in the two modes: unwrapped, then wrapping.
type Over = (
    &'static str,
    (&'static [u8], &'static [u8]),
    &'static [u32],
    &'static [u32],
    &'static [usize],
    [(u32, &'static [i64]); 2],
);

#[rustfmt::skip]
const CASES: [Over; 12] = [
    ("a Br below 0 and a Nop at FFFF", BACK, &[0], &[0], &[0, LAST, 0, LAST], [(UNTRACED, &[2]), (DONE, &[4, 0, 0])]),
    ("a Nop at FFFF to 0", BACK, &[0, 65_535], &[], &[LAST, 0], [(FORBIDDEN, &[2]), (DONE, &[2, 0, 0])]),
    ("a Nop at FFFF to 0, an entry", BACK, &[0, 65_535], &[0], &[LAST, 0], [(DONE, &[2, 1, 0]), (DONE, &[2, 0, 0])]),
    ("a Br below 0 to an entry", BACK, &[0, 65_535], &[65_535], &[0, LAST], [(DONE, &[2, 1, 0]), (DONE, &[2, 0, 0])]),
    ("entry 65,536 is not 0", BACK, &[0, 65_535], &[65_536], &[LAST, 0], [(FORBIDDEN, &[2]), (DONE, &[2, 0, 0])]),
    ("a Bz over the end, to its target", OVER, &[65_534, 0, 3], &[], &[65_534, 3], [(FORBIDDEN, &[2]), (DONE, &[2, 0, 0])]),
    ("a Bz at the end, to its next", OVER, &[65_534, 0, 3], &[], &[65_534, 0], [(FORBIDDEN, &[2]), (DONE, &[2, 0, 0])]),
    ("a Bz over the end, traced from itself", OVER, &[65_534], &[], &[65_534, 3, 0], [(UNTRACED, &[2]), (DONE, &[3, 0, 1])]),
    ("a Bz over the end, elsewhere", OVER, &[65_534, 0, 3], &[], &[65_534, 65_534], [(FORBIDDEN, &[2]); 2]),
    ("B8 0D at the end and a Jmpf at 0", FLASH, &[65_534, 0], &[], &[65_534, 0, 4], [(FORBIDDEN, &[2]), (DONE, &[3, 0, 0])]),
    ("a Jmpf at 0 after B8 0D at the end is followed", FLASH, &[65_534, 0], &[], &[0, 65_534], [(FORBIDDEN, &[2]); 2]),
    ("a Ret at FFFF to 0", RETURNS, &[0, 65_535], &[], &[LAST, 0, LAST], [(DONE, &[3, 0, 2]); 2]),
];

/// A short image, which a branch leaves at both ends of memory: nothing is traced there.
fn short() -> [Case; 2] {
    MODES.map(|mode| {
        let about = format!("a Br below 0 in a short image, {}", word(mode));
        let case = Case::new(&about, mode, &[0x01, 0xFD], &[0], &log(&[0, LAST]));
        case.answers(UNTRACED, &[2])
    })
}

pub fn cases() -> Vec<Case> {
    let both = |(about, (low, high), traced, lent, positions, answers): &Over| {
        std::array::from_fn::<Case, 2, _>(|index| {
            let (mode, (number, values)) = (MODES[index], answers[index]);
            let about = format!("{about}, {}", word(mode));
            let image = ring(low, high);
            let case = Case::new(&about, mode, &image, traced, &log(positions));
            case.entered(lent).answers(number, values)
        })
    };
    CASES.iter().flat_map(both).chain(short()).collect()
}
