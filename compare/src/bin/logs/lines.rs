//! Lines that are malformed, at the beginning of a log, within one and at its end.

use super::stored::{Case, log};
use super::units::EXAMPLE;
use compare::answer::Answer;
use compare::paper::Mode;

/// In each text a character stands for the byte of its number.
const BAD: [(&str, &str); 24] = [
    ("no bytes", "\n"),
    ("a P alone", "P\n"),
    ("no digits", "P\t\n"),
    ("three digits", "P\t005\n"),
    ("five digits", "P\t00005\n"),
    ("seven digits", "P\t0000005\n"),
    ("six digits, and no tab", "000005\n"),
    ("a small p", "p\t0005\n"),
    ("another letter", "I\t0005\n"),
    ("two letters", "PP\t005\n"),
    ("a space for the tab", "P 0005\n"),
    ("no tab", "P0005\n"),
    ("two tabs", "P\t\t005\n"),
    ("a small digit", "P\t000a\n"),
    ("a G", "P\t000G\n"),
    ("the byte before 0", "P\t/005\n"),
    ("the byte after 9", "P\t0:05\n"),
    ("the byte before A", "P\t00@5\n"),
    ("a space before the end", "P\t0005 \n"),
    ("byte 13 before byte 10", "P\t0005\r\n"),
    ("byte 13 for byte 10", "P\t0005\r"),
    ("byte 0 for a digit", "P\t000\0\n"),
    ("byte 255 for the P", "\u{FF}\t0005\n"),
    ("two lines without byte 10 between them", "P\t0005P\t0007\n"),
];

/// A last line without byte 10: the bytes that are left of it.
const LEFT: [&str; 9] = [
    "P",
    "P\t",
    "P\t0",
    "P\t00",
    "P\t000",
    "P\t0005",
    "P\t00050",
    "X",
    "000000000",
];

pub fn cases() -> Vec<Case> {
    let first = BAD
        .iter()
        .map(|(about, line)| spoiled(&format!("{about}, in the first line"), &[], line, &[0], 1));
    let within = BAD.iter().map(|(about, line)| {
        spoiled(
            &format!("{about}, in the third line"),
            &[0, 4],
            line,
            &[7],
            3,
        )
    });
    let left = LEFT.iter().map(|left| {
        let about = format!("at the end {} bytes without byte 10", left.len());
        spoiled(&about, &[0, 4, 5], left, &[], 4)
    });
    let alone = LEFT
        .iter()
        .take(2)
        .map(|left| spoiled("a part of a line alone", &[], left, &[], 1));
    first.chain(within).chain(left).chain(alone).collect()
}

/// Good lines, a bad one, whose number is known, and good lines.
fn spoiled(about: &str, before: &[usize], line: &str, after: &[usize], number: i64) -> Case {
    let byte = |c| u8::try_from(u32::from(c)).expect("a character for each byte");
    let line: Vec<u8> = line.chars().map(byte).collect();
    let text = [log(before), line, log(after)].concat();
    let case = Case::new(about, Mode::Unwrapped, &EXAMPLE, &[0], &text);
    case.answers(Answer::MALFORMED_LOG, &[number])
}
