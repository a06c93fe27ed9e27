//! Counts at the top of their range.

use super::stored::{Case, log};
use super::units::EXAMPLE;
use compare::answer::Answer;
use compare::paper::Mode;

const TOP: u64 = u64::MAX;
/// The lines' positions, counts before, and the answer.
type Full = (
    &'static str,
    &'static [usize],
    &'static [(usize, u64)],
    (u32, &'static [i64]),
);

#[rustfmt::skip]
const FULL: [Full; 10] = [
    ("full at the first line", &[0, 4], &[(0, TOP)], (Answer::COUNT_FULL, &[1])),
    ("full at the second line", &[0, 4], &[(4, TOP)], (Answer::COUNT_FULL, &[2])),
    ("full at the last line", &[0, 4, 5, 7], &[(7, TOP)], (Answer::COUNT_FULL, &[4])),
    ("one below the top", &[0, 4], &[(4, TOP - 1)], (Answer::DONE, &[2, 0, 0])),
    ("one below the top, twice", &[0, 4, 5, 0, 4], &[(4, TOP - 1)], (Answer::COUNT_FULL, &[5])),
    ("two below the top, twice", &[0, 4, 5, 0, 4], &[(4, TOP - 2)], (Answer::DONE, &[5, 0, 0])),
    ("full at an interrupt", &[4, 0], &[(0, TOP)], (Answer::COUNT_FULL, &[2])),
    ("full at a free move", &[7, 5], &[(5, TOP)], (Answer::COUNT_FULL, &[2])),
    ("full where no line leads", &[0, 4], &[(1, TOP), (7, TOP)], (Answer::DONE, &[2, 0, 0])),
    ("half the range", &[0, 4], &[(0, TOP / 2), (4, TOP / 2 + 1)], (Answer::DONE, &[2, 0, 0])),
];

pub fn cases() -> Vec<Case> {
    let one = |(about, lines, counts, (number, values)): &Full| {
        let case = Case::new(about, Mode::Unwrapped, &EXAMPLE, &[0], &log(lines));
        let counts = counts.iter();
        let case = counts.fold(case, |case, (at, count)| case.counted(*at, *count));
        case.answers(*number, values)
    };
    FULL.iter().map(one).collect()
}
