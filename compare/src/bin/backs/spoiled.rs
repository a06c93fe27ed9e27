//! Listings of document 01's example with one line that is malformed.

use super::example;
use super::stored::Case;
use compare::answer::Answer;

/// A line and what stands in its place.
const INSTRUCTIONS: [(&str, usize, &str); 36] = [
    ("another mnemonic", 2, "I\t0000\t0102\tbrf\t0004\n"),
    ("a mnemonic in upper case", 2, "I\t0000\t0102\tBr\t0004\n"),
    ("no mnemonic", 2, "I\t0000\t0102\t\t0004\n"),
    ("a mnemonic cut off", 5, "I\t0004\t64\tin\t@R0\n"),
    ("a longer mnemonic", 7, "I\t0007\tA0\treti\n"),
    ("another target", 2, "I\t0000\t0102\tbr\t0005\n"),
    ("another byte", 2, "I\t0000\t0103\tbr\t0004\n"),
    ("a target in three digits", 2, "I\t0000\t0102\tbr\t004\n"),
    ("a target in five digits", 2, "I\t0000\t0102\tbr\t00004\n"),
    ("? for a target in memory", 2, "I\t0000\t0102\tbr\t?\n"),
    ("a target for ?", 2, "I\t0000\t0180\tbr\tFF82\n"),
    ("another register", 5, "I\t0004\t64\tinc\t@R1\n"),
    ("a register in lower case", 5, "I\t0004\t64\tinc\t@r0\n"),
    ("an operand too few", 2, "I\t0000\t0102\tbr\n"),
    ("an operand too many", 2, "I\t0000\t0102\tbr\t0004\t0004\n"),
    (
        "an operand where there is none",
        7,
        "I\t0007\tA0\tret\t0000\n",
    ),
    ("a tab at the end", 7, "I\t0007\tA0\tret\t\n"),
    ("a byte too many", 2, "I\t0000\t010200\tbr\t0004\n"),
    ("a byte too few", 2, "I\t0000\t01\tbr\t0004\n"),
    ("a digit too many", 2, "I\t0000\t01020\tbr\t0004\n"),
    ("a digit too few", 2, "I\t0000\t010\tbr\t0004\n"),
    ("no bytes", 2, "I\t0000\t\tbr\t0004\n"),
    ("nothing after the bytes", 2, "I\t0000\t0102\n"),
    ("nothing after the position", 2, "I\t0000\n"),
    ("bytes in lower case", 6, "I\t0005\t80f9\tbz\t0000\n"),
    ("no digit in the bytes", 6, "I\t0005\t80G9\tbz\t0000\n"),
    ("a position in lower case", 7, "I\t000a\tA0\tret\n"),
    ("a position in three digits", 2, "I\t000\t0102\tbr\t0004\n"),
    ("a position in five digits", 2, "I\t00000\t0102\tbr\t0004\n"),
    ("no position", 2, "I\t\t0102\tbr\t0004\n"),
    ("a blank for a tab", 2, "I\t0000 0102\tbr\t0004\n"),
    ("two tabs", 2, "I\t0000\t\t0102\tbr\t0004\n"),
    ("a blank at the end", 2, "I\t0000\t0102\tbr\t0004 \n"),
    ("CR at the end", 2, "I\t0000\t0102\tbr\t0004\r\n"),
    ("NUL at the end", 7, "I\t0007\tA0\tret\0"),
    (
        "a comment at the end",
        2,
        "I\t0000\t0102\tbr\t0004\t;again\n",
    ),
];

const OTHERS: [(&str, usize, &str); 47] = [
    ("a letter in lower case", 2, "i\t0000\t0102\tbr\t0004\n"),
    ("an unknown letter", 1, "X\t0000\n"),
    ("a comment", 1, ";start\n"),
    ("two letters", 1, "LL\t0000\n"),
    ("no letter", 1, "\t0000\n"),
    ("a tab before the letter", 1, "\tL\t0000\n"),
    ("a blank before the letter", 1, " L\t0000\n"),
    ("a line of the program's refusal", 1, "R\t13\n"),
    ("byte 255", 1, "\u{FF}\n"),
    ("NUL alone", 1, "\0\n"),
    ("an empty first line", 1, "\n"),
    ("an empty line between", 3, "\n"),
    ("CR alone", 3, "\r\n"),
    ("a label without a position", 1, "L\n"),
    ("a label with an empty position", 1, "L\t\n"),
    ("a label with a field", 1, "L\t0000\t0000\n"),
    ("a label with a tab at the end", 1, "L\t0000\t\n"),
    ("a label's position in three digits", 1, "L\t000\n"),
    ("a label's position in five digits", 1, "L\t00000\n"),
    ("a label's position in lower case", 1, "L\t000a\n"),
    ("a label's position with a sign", 1, "L\t+000\n"),
    ("a label with a blank for a tab", 1, "L 0000\n"),
    ("a label with CR", 1, "L\t0000\r\n"),
    ("a label with a blank at the end", 1, "L\t0000 \n"),
    ("overlaps without a position", 1, "O\n"),
    ("overlaps without a field", 1, "O\t0000\n"),
    ("overlaps with an empty field", 1, "O\t0000\t\n"),
    ("overlaps with a tab at the end", 1, "O\t0000\t0001\t\n"),
    ("overlaps with two tabs", 1, "O\t0000\t0001\t\t0002\n"),
    ("overlaps with a blank between", 1, "O\t0000\t0001 0002\n"),
    (
        "overlaps with a field in three digits",
        1,
        "O\t0000\t0001\t002\n",
    ),
    ("overlaps with a field in lower case", 1, "O\t0000\t00ab\n"),
    ("arrivals without a field", 1, "A\t0000\n"),
    (
        "arrivals with a field in five digits",
        1,
        "A\t0000\t00000\n",
    ),
    ("arrivals with ?", 1, "A\t0000\t0001\t?\n"),
    ("arrivals with CR", 1, "A\t0000\t0001\r\n"),
    ("data without a field", 3, "D\t0002\n"),
    ("data of no bytes", 3, "D\t0002\t\n"),
    ("data with an odd digit", 3, "D\t0002\t004\n"),
    ("data in lower case", 3, "D\t0002\t004a\n"),
    ("data with a blank between", 3, "D\t0002\t00 41\n"),
    ("data with a tab between", 3, "D\t0002\t00\t41\n"),
    ("data with a tab at the end", 3, "D\t0002\t0041\t\n"),
    ("data with a blank at the end", 3, "D\t0002\t0041 \n"),
    ("data with CR", 3, "D\t0002\t0041\r\n"),
    ("data with ?", 3, "D\t0002\t??\n"),
    ("a digit of data too few at the end", 7, "D\t0007\tA"),
];

pub fn cases() -> Vec<Case> {
    let length = example::IMAGE.len();
    let all = INSTRUCTIONS.iter().chain(&OTHERS);
    let spoiled = all.map(|(about, line, by)| (*about, *line, example::with(*line, by)));
    let text = example::TEXT;
    let further = [
        ("an empty line at the end", 8, format!("{text}\n")),
        ("byte 10 alone", 1, "\n".to_string()),
        (
            "a line that goes on and on",
            1,
            format!("L\t0000{}\n", "0".repeat(200)),
        ),
    ];
    let cases = spoiled.chain(further);
    cases
        .map(|(about, line, text)| {
            Case::new(about, &text, length).answers(Answer::MALFORMED_LINE, line)
        })
        .collect()
}
