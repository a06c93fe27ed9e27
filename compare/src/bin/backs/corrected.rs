//! Listings that a hand has changed and that are still good.

use super::example;
use super::stored::Case;
use compare::answer::Answer;

/// Of document 01's example: a line and what stands in its place.
const CHANGED: [(&str, usize, &str); 22] = [
    (
        "another target and its byte",
        2,
        "I\t0000\t0103\tbr\t0005\n",
    ),
    (
        "another instruction of the same size",
        2,
        "I\t0000\t80F9\tbz\t?\n",
    ),
    ("a shorter instruction", 2, "I\t0000\tA0\tret\n"),
    (
        "another register and its byte",
        5,
        "I\t0004\t67\tinc\t@R3\n",
    ),
    ("another byte of data", 3, "D\t0002\t0042\n"),
    ("data cut in two", 3, "D\t0002\t00\nD\t0003\t41\n"),
    ("the zero of the data left out", 3, "D\t0003\t41\n"),
    ("the data left out", 3, ""),
    ("a label left out", 4, ""),
    ("an instruction left out", 7, ""),
    ("an instruction in the middle left out", 5, ""),
    ("the first line left out", 1, ""),
    ("data in the place of an instruction", 7, "D\t0007\tA0\n"),
    ("data over code with the same bytes", 3, "D\t0001\t020041\n"),
    (
        "data over code and data",
        3,
        "D\t0001\t02004164\nD\t0002\t004164\nD\t0003\t41\n",
    ),
    (
        "an instruction over another with the same byte",
        3,
        "I\t0001\t0200\tld\t000\nD\t0003\t41\n",
    ),
    (
        "code over data with the same bytes",
        3,
        "D\t0002\t00416480F9A0\n",
    ),
    (
        "a label inside an instruction",
        3,
        "L\t0001\nD\t0002\t0041\n",
    ),
    ("a label inside data", 3, "D\t0002\t0041\nL\t0003\n"),
    (
        "all four letters at a position",
        5,
        "O\t0004\tFFFF\nA\t0004\t0000\nI\t0004\t64\tinc\t@R0\n",
    ),
    (
        "overlaps that are none, falling and repeated",
        5,
        "O\t0004\t0009\t0001\t0001\tFFFF\nI\t0004\t64\tinc\t@R0\n",
    ),
    (
        "labels past the length",
        7,
        "I\t0007\tA0\tret\nL\t0008\nO\t0009\t0000\nA\tFFFE\t0000\nL\tFFFF\nA\tFFFF\t0000\n",
    ),
];

/// Whole texts with their lengths.
const WHOLE: [(&str, &str, usize); 10] = [
    ("no lines", "", 5),
    ("no lines and no image", "", 0),
    ("a label alone, without byte 10", "L\t0000", 1),
    (
        "labels and no image",
        "L\t0000\nO\t0000\t0000\nA\t0000\t0000\nL\tFFFF\n",
        0,
    ),
    (
        "16 bytes, listed zeros among them",
        "D\t0000\t00000102030405060708090A0B0C0D00\n",
        16,
    ),
    ("a zero, listed twice", "D\t0000\t0000\nD\t0001\t0000\n", 3),
    ("data up to the length", "D\t0003\tAA\n", 4),
    (
        "an instruction up to the length",
        "I\t0001\t220102\tmov\t#02\t001\n",
        4,
    ),
    (
        "overlapping data",
        "D\t0000\t010203\nD\t0001\t0203\nD\t0002\t030405\n",
        5,
    ),
    (
        "every upper-case digit",
        "D\tABCD\t0123456789ABCDEF\nA\tCDEF\t0123\t4567\t89AB\n",
        0xABD5,
    ),
];

pub fn cases() -> Vec<Case> {
    let length = example::IMAGE.len();
    let changed = CHANGED
        .iter()
        .map(|(about, line, by)| Case::new(about, &example::with(*line, by), length));
    let whole = WHOLE
        .iter()
        .map(|(about, text, length)| Case::new(about, text, *length));
    changed
        .chain(whole)
        .chain([many_places()])
        .map(accepted)
        .collect()
}

fn many_places() -> Case {
    let places = "\t0000\tFFFF".repeat(40);
    let text = format!("O\t0000{places}\nA\t0000{places}\n");
    Case::new("80 positions on a line", &text, 1)
}

fn accepted(case: Case) -> Case {
    let (answer, ..) = case.read();
    assert_eq!(answer.number, Answer::DONE, "{}", case.lines());
    case
}
