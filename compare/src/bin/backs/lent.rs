//! Lengths and rooms: what is too long or too short, and what stays.

use super::example::TEXT;
use super::stored::Case;
use compare::answer::Answer;

/// Document 01's example, whose image has 8 bytes, with other lengths; the answer and its value.
const LENGTHS: [(&str, usize, u32, usize); 9] = [
    ("no length", 0, Answer::LINE_PAST_END, 2),
    (
        "a length inside the first instruction",
        1,
        Answer::LINE_PAST_END,
        2,
    ),
    ("a length before the data", 2, Answer::LINE_PAST_END, 3),
    (
        "a length inside an instruction",
        6,
        Answer::LINE_PAST_END,
        6,
    ),
    ("a byte less", 7, Answer::LINE_PAST_END, 7),
    ("a byte more", 9, Answer::DONE, 7),
    ("1,000 bytes", 1_000, Answer::DONE, 7),
    ("65,536 bytes", 65_536, Answer::DONE, 7),
    ("65,537 bytes", 65_537, Answer::LONG_IMAGE, 65_537),
];

/// A text, the length and the rooms' lengths, the answer and its value.
type Lent = (&'static str, &'static str, [usize; 3], u32, usize);

const SHORT_ROOMS: [Lent; 12] = [
    (
        "marks a byte short",
        TEXT,
        [8, 8, 7],
        Answer::SHORT_MARKS,
        7,
    ),
    ("no marks", TEXT, [8, 8, 0], Answer::SHORT_MARKS, 0),
    (
        "the image's room a byte short",
        TEXT,
        [8, 7, 8],
        Answer::NO_ROOM,
        8,
    ),
    ("no room for the image", TEXT, [8, 0, 9], Answer::NO_ROOM, 8),
    ("both short", TEXT, [8, 7, 6], Answer::SHORT_MARKS, 6),
    (
        "too long, and both short",
        TEXT,
        [65_537, 3, 2],
        Answer::LONG_IMAGE,
        65_537,
    ),
    (
        "too long, and malformed",
        "\n",
        [65_537; 3],
        Answer::LONG_IMAGE,
        65_537,
    ),
    (
        "marks short, and malformed",
        "\n",
        [8, 8, 7],
        Answer::SHORT_MARKS,
        7,
    ),
    (
        "the image's room short, and malformed",
        "\n",
        [8, 7, 8],
        Answer::NO_ROOM,
        8,
    ),
    (
        "the image's room short, and past the length",
        TEXT,
        [6, 5, 6],
        Answer::NO_ROOM,
        6,
    ),
    (
        "marks short for no lines",
        "",
        [1, 1, 0],
        Answer::SHORT_MARKS,
        0,
    ),
    ("no room for no lines", "", [1, 0, 1], Answer::NO_ROOM, 1),
];

/// What lies past the length stays, and all of it on a refusal.
const LONG_ROOMS: [Lent; 8] = [
    (
        "an image room longer than the length",
        TEXT,
        [8, 12, 8],
        Answer::DONE,
        7,
    ),
    (
        "marks longer than the length",
        TEXT,
        [8, 8, 11],
        Answer::DONE,
        7,
    ),
    (
        "both longer than the length",
        TEXT,
        [8, 300, 200],
        Answer::DONE,
        7,
    ),
    (
        "rooms for no length",
        "L\t0000\n",
        [0, 3, 4],
        Answer::DONE,
        1,
    ),
    ("rooms for no lines", "", [2, 5, 4], Answer::DONE, 0),
    (
        "rooms longer than any image",
        TEXT,
        [65_536, 65_540, 65_539],
        Answer::DONE,
        7,
    ),
    (
        "longer rooms, and malformed",
        "D\t0000\tA0\nL\t0000\n",
        [8, 12, 11],
        Answer::MALFORMED_LINE,
        2,
    ),
    (
        "longer rooms, and past the length",
        TEXT,
        [7, 12, 11],
        Answer::LINE_PAST_END,
        7,
    ),
];

pub fn cases() -> Vec<Case> {
    let lengths = LENGTHS.iter();
    let lengths =
        lengths.map(|(about, length, number, value)| (*about, TEXT, [*length; 3], *number, *value));
    let rooms = SHORT_ROOMS.into_iter().chain(LONG_ROOMS);
    let case = |(about, text, [length, image, marks], number, value): Lent| {
        let case = Case::new(about, text, length).in_rooms(image, marks);
        case.answers(number, value)
    };
    lengths.chain(rooms).map(case).collect()
}
