//! Lines that are well formed and stand in a wrong place: out of order, against an earlier line, or past the
//! length. The answer is a refusal and its line.

use super::stored::Case;
use compare::answer::Answer;
use compare::paper::{Mode, listing};

const MALFORMED: u32 = Answer::MALFORMED_LINE;
const PAST_END: u32 = Answer::LINE_PAST_END;

/// Each with its length.
const ORDER: [(&str, &str, usize, usize); 24] = [
    ("a position that falls", "L\t0004\nL\t0003\n", 9, 2),
    (
        "a position that falls past the length",
        "L\t0009\nL\t0008\n",
        2,
        2,
    ),
    (
        "an instruction that falls",
        "I\t0001\tA0\tret\nI\t0000\tA0\tret\n",
        9,
        2,
    ),
    ("data that falls", "D\t0004\t01\nD\t0003\t0001\n", 9, 2),
    ("two labels", "L\t0000\nL\t0000\n", 9, 2),
    ("overlaps twice", "O\t0000\t0001\nO\t0000\t0001\n", 9, 2),
    ("arrivals twice", "A\t0000\t0001\nA\t0000\t0001\n", 9, 2),
    (
        "an instruction twice",
        "I\t0000\tA0\tret\nI\t0000\tA0\tret\n",
        9,
        2,
    ),
    ("data twice", "D\t0000\tA0\nD\t0000\tA0\n", 9, 2),
    (
        "a label twice, others between",
        "L\t0000\nO\t0000\t0001\nL\t0000\n",
        9,
        3,
    ),
    ("a label after overlaps", "O\t0000\t0001\nL\t0000\n", 9, 2),
    ("a label after arrivals", "A\t0000\t0001\nL\t0000\n", 9, 2),
    (
        "a label after an instruction",
        "I\t0000\tA0\tret\nL\t0000\n",
        9,
        2,
    ),
    (
        "overlaps after arrivals",
        "A\t0000\t0001\nO\t0000\t0001\n",
        9,
        2,
    ),
    (
        "overlaps after an instruction",
        "I\t0000\tA0\tret\nO\t0000\t0001\n",
        9,
        2,
    ),
    (
        "arrivals after an instruction",
        "I\t0000\tA0\tret\nA\t0000\t0001\n",
        9,
        2,
    ),
    ("data after a label", "L\t0000\nD\t0000\tA0\n", 9, 2),
    ("data after overlaps", "O\t0000\t0001\nD\t0000\tA0\n", 9, 2),
    ("data after arrivals", "A\t0000\t0001\nD\t0000\tA0\n", 9, 2),
    (
        "data after an instruction",
        "I\t0000\tA0\tret\nD\t0000\tA0\n",
        9,
        2,
    ),
    ("a label after data", "D\t0000\tA0\nL\t0000\n", 9, 2),
    ("overlaps after data", "D\t0000\tA0\nO\t0000\t0001\n", 9, 2),
    ("arrivals after data", "D\t0000\tA0\nA\t0000\t0001\n", 9, 2),
    (
        "an instruction after data",
        "D\t0000\tA0\nI\t0000\tA0\tret\n",
        9,
        2,
    ),
];

const AGAINST: [(&str, &str, usize, usize); 10] = [
    (
        "data against code",
        "I\t0000\t220102\tmov\t#02\t001\nD\t0001\t03\n",
        9,
        2,
    ),
    (
        "data against code in its last byte",
        "I\t0000\t220102\tmov\t#02\t001\nD\t0001\t0103\n",
        9,
        2,
    ),
    (
        "a zero against code",
        "I\t0000\t0102\tbr\t0004\nD\t0001\t00\n",
        9,
        2,
    ),
    (
        "code against code",
        "I\t0000\t0102\tbr\t0004\nI\t0001\t00\tnop\n",
        9,
        2,
    ),
    (
        "code against the zero of code",
        "I\t0000\t8000\tbz\t0002\nI\t0001\tA0\tret\n",
        9,
        2,
    ),
    (
        "code against data",
        "D\t0000\t0102\nI\t0001\tA0\tret\n",
        9,
        2,
    ),
    (
        "code against a zero of data",
        "D\t0000\t0100\nI\t0001\tA0\tret\n",
        9,
        2,
    ),
    ("data against data", "D\t0000\t0102\nD\t0001\t03\n", 9, 2),
    (
        "data against a zero of data",
        "D\t0000\t0000\nD\t0001\t0001\nD\t0002\t02\n",
        9,
        3,
    ),
    (
        "the last of 16 bytes against the first line",
        "D\t0000\t000102030405060708090A0B0C0D0E0F\nD\t000F\t10\n",
        16,
        2,
    ),
];

const PAST: [(&str, &str, usize, usize); 9] = [
    ("an instruction at the length", "I\t0004\tA0\tret\n", 4, 1),
    (
        "an instruction half past the length",
        "I\t0003\t0102\tbr\t0007\n",
        4,
        1,
    ),
    (
        "an instruction far past the length",
        "I\tFFFF\tA0\tret\n",
        4,
        1,
    ),
    ("data at the length", "D\t0004\t00\n", 4, 1),
    ("data half past the length", "D\t0003\t0000\n", 4, 1),
    (
        "data past the length that agrees with code",
        "I\t0002\t8000\tbz\t0004\nD\t0003\t0000\n",
        4,
        2,
    ),
    ("data past no image", "L\t0000\nD\t0001\t00\n", 0, 2),
    (
        "past the length after labels past it",
        "L\t0009\nO\t0009\t0000\nA\t0009\t0000\nI\t0009\tA0\tret\n",
        4,
        4,
    ),
    (
        "16 bytes in a length of 15",
        "D\t0000\t000102030405060708090A0B0C0D0E0F\n",
        15,
        1,
    ),
];

/// Both on one line, or on two.
const BOTH: [(&str, &str, usize, u32, usize); 12] = [
    (
        "past the length and another mnemonic",
        "I\t0004\tA0\treti\n",
        4,
        MALFORMED,
        1,
    ),
    (
        "past the length and 17 bytes",
        "D\t0004\t0000000000000000000000000000000000\n",
        4,
        MALFORMED,
        1,
    ),
    (
        "past the length and a position that falls",
        "L\t0009\nD\t0008\t00\n",
        4,
        MALFORMED,
        2,
    ),
    (
        "past the length and data after a label",
        "L\t0009\nD\t0009\t00\n",
        4,
        MALFORMED,
        2,
    ),
    (
        "past the length and against code",
        "I\t0002\t8000\tbz\t0004\nD\t0003\t0100\n",
        4,
        MALFORMED,
        2,
    ),
    (
        "past the length first",
        "I\t0004\tA0\tret\nL\t0000\n",
        4,
        PAST_END,
        1,
    ),
    (
        "malformed first",
        "L\t0000\t\nI\t0004\tA0\tret\n",
        4,
        MALFORMED,
        1,
    ),
    ("malformed twice", "L\t0000\nL\t0000\n\n", 4, MALFORMED, 2),
    (
        "past the length twice",
        "L\t0002\nD\t0003\t0000\nD\t0004\t00\n",
        4,
        PAST_END,
        2,
    ),
    (
        "next is 65,537, wrapped",
        "I\tFFFF\t0102\tbr\t0003\n",
        65_536,
        MALFORMED,
        1,
    ),
    ("data past memory", "D\tFFFF\t0001\n", 65_536, PAST_END, 1),
    ("a position of 65,536", "L\t10000\n", 65_536, MALFORMED, 1),
];

/// The line that the writer would print at a position if memory went on.
const END: [(&str, usize, &[u8], usize, u32); 6] = [
    (
        "next is 65,537, ?",
        65_535,
        &[0x01, 0x02],
        65_536,
        MALFORMED,
    ),
    (
        "next is 65,537, a target in memory",
        65_535,
        &[0x01, 0xF0],
        65_536,
        MALFORMED,
    ),
    (
        "next is 65,537, three bytes",
        65_534,
        &[0x22, 0x01, 0x02],
        65_536,
        MALFORMED,
    ),
    (
        "next is 65,538",
        65_535,
        &[0x22, 0x01, 0x02],
        65_536,
        MALFORMED,
    ),
    (
        "next is 65,537, past the length",
        65_535,
        &[0x80, 0x00],
        4,
        MALFORMED,
    ),
    (
        "next is 65,536, past the length",
        65_534,
        &[0x80, 0x00],
        65_535,
        PAST_END,
    ),
];

/// A text and its length, the refusal and its line.
type Wrong = (&'static str, String, usize, u32, usize);

pub fn cases() -> Vec<Case> {
    let all = [
        listed(MALFORMED, &ORDER),
        listed(MALFORMED, &AGAINST),
        listed(PAST_END, &PAST),
        both(),
        data(),
        end(),
    ];
    let case = |(about, text, length, number, line): Wrong| {
        Case::new(about, &text, length).answers(number, line)
    };
    all.concat().into_iter().map(case).collect()
}

fn listed(number: u32, table: &[(&'static str, &str, usize, usize)]) -> Vec<Wrong> {
    let rows = table.iter();
    rows.map(|(about, text, length, line)| (*about, text.to_string(), *length, number, *line))
        .collect()
}

fn both() -> Vec<Wrong> {
    let rows = BOTH.iter();
    rows.map(|(about, text, length, number, line)| {
        (*about, text.to_string(), *length, *number, *line)
    })
    .collect()
}

fn data() -> Vec<Wrong> {
    let zeros = |count| format!("D\t0000\t{}\n", "00".repeat(count));
    vec![
        ("17 bytes on a line", zeros(17), 40, MALFORMED, 1),
        ("32 bytes on a line", zeros(32), 40, MALFORMED, 1),
    ]
}

fn end() -> Vec<Wrong> {
    let line = |at: usize, bytes: &[u8]| listing::instruction_line(Mode::Unwrapped, bytes, at);
    let rows = END.iter();
    rows.map(|(about, at, bytes, length, number)| (*about, line(*at, bytes), *length, *number, 1))
        .collect()
}
