//! Listings in wrapping mode: what the plain writer prints, read back in the same mode and in the other; and lines that
//! only one of the two takes.

use super::stored::Case;
use super::written;
use compare::answer::Answer;
use compare::paper::Mode;
use compare::paper::listing::{self, Arrivals};

const MODES: [Mode; 2] = [Mode::Unwrapped, Mode::Wrapping];

/// Images and marks with a target that leaves memory, and the line that shows it, in a listing without arrivals.
const SHORT: [(&str, &[u8], &[u8], usize); 2] = [
    ("01 80 at 0", &[0x01, 0x80], &[2, 0], 1),
    (
        "a branch to 0 and one to -1, between them a Ret",
        &[0x80, 0xFE, 0xA0, 0x90, 0xFA],
        &[2, 0, 2, 2, 0],
        4,
    ),
];

/// The same with code at the end of memory, and zeros before it.
const HIGH: [(&str, &[u8], &[u8], usize); 2] = [
    ("the highest target, 65,663", &[0x01, 0x7F], &[2, 0], 1),
    (
        "a branch to 65,536 and a Nop at FFFF",
        &[0x80, 0x01, 0x00],
        &[2, 0, 2],
        1,
    ),
];

/// A line, the length, and the answers in the two modes: unwrapped, then wrapping.
type Line = (&'static str, &'static str, usize, [(u32, usize); 2]);

const LINES: [Line; 9] = [
    (
        "a wrapped target below 0",
        "I\t0000\t01FD\tbr\tFFFF\n",
        4,
        [(Answer::MALFORMED_LINE, 1), (Answer::DONE, 1)],
    ),
    (
        "? for a target below 0",
        "I\t0000\t01FD\tbr\t?\n",
        4,
        [(Answer::DONE, 1), (Answer::MALFORMED_LINE, 1)],
    ),
    (
        "another wrapped target",
        "I\t0000\t01FD\tbr\tFFFE\n",
        4,
        [(Answer::MALFORMED_LINE, 1); 2],
    ),
    (
        "a wrapped target above FFFF",
        "I\tFFFE\t0100\tbr\t0000\n",
        65_536,
        [(Answer::MALFORMED_LINE, 1), (Answer::DONE, 1)],
    ),
    (
        "a wrapped target past the length",
        "L\t0000\nI\t0001\t80FA\tbz\tFFFD\n",
        2,
        [(Answer::MALFORMED_LINE, 2), (Answer::LINE_PAST_END, 2)],
    ),
    (
        "next is 65,537, its target wrapped",
        "I\tFFFF\t0102\tbr\t0003\n",
        65_536,
        [(Answer::MALFORMED_LINE, 1); 2],
    ),
    (
        "next is 65,536, and goes on",
        "I\tFFFF\t00\tnop\n",
        65_536,
        [(Answer::DONE, 1); 2],
    ),
    (
        "a wrapped target in an image too long",
        "I\t0000\t01FD\tbr\tFFFF\n",
        65_537,
        [(Answer::LONG_IMAGE, 65_537); 2],
    ),
    (
        "a target in memory, no wrapping",
        "I\t0000\t0102\tbr\t0004\n",
        2,
        [(Answer::DONE, 1); 2],
    ),
];

pub fn cases() -> Vec<Case> {
    let high = HIGH.map(|(about, code, marks, line)| {
        let [image, marks] = [code, marks].map(written::at_end);
        (about, image, marks, line)
    });
    let short =
        SHORT.map(|(about, image, marks, line)| (about, image.to_vec(), marks.to_vec(), line));
    let listed = short.into_iter().chain(high);
    let listed =
        listed.flat_map(|(about, image, marks, line)| both_ways(about, &image, &marks, line));
    listed.chain(LINES.iter().flat_map(in_modes)).collect()
}

/// Listed in wrapping mode, and read back; then listed in each mode and read back in the other.
fn both_ways(about: &str, image: &[u8], marks: &[u8], line: usize) -> Vec<Case> {
    let whole = written::variants(Mode::Wrapping, &format!("{about}, wrapping"), image, marks);
    let [unwrapped, wrapping] = MODES;
    let crossed = [(wrapping, unwrapped), (unwrapped, wrapping)].map(|(listed, read)| {
        let text = listing::listing(listed, image, marks, Arrivals::Declined);
        let about = format!("{about}, listed {} and read {}", word(listed), word(read));
        let case = Case::new(&about, &text, image.len()).in_mode(read);
        case.answers(Answer::MALFORMED_LINE, line)
    });
    whole.into_iter().chain(crossed).collect()
}

fn in_modes((about, text, length, answers): &Line) -> [Case; 2] {
    std::array::from_fn(|index| {
        let (mode, (number, value)) = (MODES[index], answers[index]);
        let about = format!("{about}, read {}", word(mode));
        let case = Case::new(&about, text, *length).in_mode(mode);
        case.answers(number, value)
    })
}

fn word(mode: Mode) -> &'static str {
    match mode {
        Mode::Unwrapped => "unwrapped",
        Mode::Wrapping => "wrapping",
    }
}
