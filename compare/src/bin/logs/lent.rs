//! Refusals of what is lent, which come before any line, and lists longer than the image.

use super::stored::{Case, log};
use super::units::EXAMPLE;
use compare::answer::Answer;
use compare::paper::{Mode, tracer};

/// The text, how many marks and counts are lent, and the refusal with its value.
const ROOMS: [(&str, &[u8], [usize; 2], u32, i64); 9] = [
    (
        "a mark too few",
        b"P\t0000\n",
        [7, 8],
        Answer::SHORT_MARKS,
        7,
    ),
    ("no marks", b"P\t0000\n", [0, 8], Answer::SHORT_MARKS, 0),
    ("a count too few", b"P\t0000\n", [8, 7], Answer::NO_ROOM, 8),
    ("no counts", b"P\t0000\n", [8, 0], Answer::NO_ROOM, 8),
    (
        "marks and counts too few",
        b"P\t0000\n",
        [7, 7],
        Answer::SHORT_MARKS,
        7,
    ),
    (
        "no lines, and a count too few",
        b"",
        [8, 7],
        Answer::NO_ROOM,
        8,
    ),
    (
        "no lines, and a mark too few",
        b"",
        [7, 8],
        Answer::SHORT_MARKS,
        7,
    ),
    (
        "a bad line, and a count too few",
        b"\n",
        [9, 7],
        Answer::NO_ROOM,
        8,
    ),
    (
        "a part of a line, and a mark too few",
        b"P",
        [7, 9],
        Answer::SHORT_MARKS,
        7,
    ),
];

/// Marks that are damaged, and the lowest of them.
const DAMAGED: [(&str, &[(usize, u8)], i64); 6] = [
    ("a mark 5", &[(3, 5)], 3),
    ("a mark 255", &[(7, 255)], 7),
    ("mark 3 at an Inc", &[(4, 3)], 4),
    ("mark 2 at what is cut off", &[(7, 2), (6, 2), (5, 9)], 5),
    ("two damaged marks", &[(6, 200), (2, 9)], 2),
    ("mark 3 at a Br", &[(0, 3), (1, 5)], 0),
];

pub fn cases() -> Vec<Case> {
    let rooms = ROOMS
        .iter()
        .map(|(about, text, [marks, counts], number, value)| {
            let case = example(about, text).in_rooms(*marks, *counts);
            case.answers(*number, &[*value])
        });
    let damaged = DAMAGED.iter().map(|(about, marks, lowest)| {
        let case = example(about, &log(&[0, 4]));
        let case = marks
            .iter()
            .fold(case, |case, (at, mark)| case.marked(*at, *mark));
        case.answers(Answer::DAMAGED, &[*lowest])
    });
    let all = rooms.chain(damaged).chain(longer());
    all.chain(cut_off()).chain(too_long()).collect()
}

fn example(about: &str, text: &[u8]) -> Case {
    Case::new(about, Mode::Unwrapped, &EXAMPLE, &[0], text)
}

/// What lies past the image stays, and is not looked at.
fn longer() -> [Case; 4] {
    let good = log(&[0, 4, 5, 7, 4]);
    let lent = |about: &str, text: &[u8]| example(about, text).in_rooms(12, 13);
    [
        lent("marks and counts behind the image", &good).answers(Answer::DONE, &[5, 0, 1]),
        lent("a damaged mark behind the image", &good)
            .marked(9, 77)
            .answers(Answer::DONE, &[5, 0, 1]),
        lent("a full count behind the image", &good)
            .counted(12, u64::MAX)
            .answers(Answer::DONE, &[5, 0, 1]),
        lent("a traced mark behind the image", &log(&[7, 9]))
            .marked(9, 2)
            .answers(Answer::NOT_TRACED, &[2]),
    ]
}

/// The last instruction of an image has a byte too few, and is marked as traced.
fn cut_off() -> [Case; 2] {
    let case = |about: &str| Case::new(about, Mode::Unwrapped, &[0x00, 0x01], &[0], &log(&[0]));
    let marked = case("what is cut off is traced").marked(1, 2);
    [
        case("what is cut off waits").answers(Answer::DONE, &[1, 0, 0]),
        marked.answers(Answer::DAMAGED, &[1]),
    ]
}

/// Past the longest image.
fn too_long() -> [Case; 3] {
    let length = tracer::LONGEST + 1;
    let image = vec![0; length];
    let case = |about: &str| Case::new(about, Mode::Unwrapped, &image, &[], b"\n");
    let value = &[length as i64];
    [
        case("an image of 65,537 bytes").answers(Answer::LONG_IMAGE, value),
        case("too long, and marks and counts too few")
            .in_rooms(5, 3)
            .answers(Answer::LONG_IMAGE, value),
        case("too long, and a damaged mark")
            .marked(0, 9)
            .answers(Answer::LONG_IMAGE, value),
    ]
}
