//! Positions that are not traced, and which of several refusals comes first.

use super::stored::{Case, log};
use super::units::EXAMPLE;
use compare::answer::Answer;
use compare::paper::Mode;

/// The lines' positions, and the refusal with its line.
const UNTRACED: [(&str, &[usize], u32, i64); 9] = [
    ("inside an instruction", &[1], Answer::NOT_TRACED, 1),
    ("data", &[0, 4, 3], Answer::NOT_TRACED, 3),
    ("the image's length", &[0, 8], Answer::NOT_TRACED, 2),
    ("the last of memory", &[65_535], Answer::NOT_TRACED, 1),
    ("after a Ret, not traced", &[7, 2], Answer::NOT_TRACED, 2),
    ("not traced, and no move", &[4, 6], Answer::NOT_TRACED, 2),
    (
        "no move, and then not traced",
        &[0, 5, 6],
        Answer::FORBIDDEN_MOVE,
        2,
    ),
    (
        "not traced, and then no move",
        &[0, 6, 5],
        Answer::NOT_TRACED,
        2,
    ),
    (
        "no move, after which a line would be one",
        &[0, 5, 7],
        Answer::FORBIDDEN_MOVE,
        2,
    ),
];

/// A mark of an instruction that is not traced: untouched, waiting, pinned.
const MARKS: [(&str, u8); 3] = [("untouched", 0), ("waiting", 1), ("pinned", 4)];

pub fn cases() -> Vec<Case> {
    let untraced = UNTRACED
        .iter()
        .map(|(about, lines, number, line)| example(about, &log(lines)).answers(*number, &[*line]));
    let marked = MARKS.iter().map(|(about, mark)| {
        let case = example(&format!("a target that is {about}"), &log(&[0, 4]));
        case.marked(4, *mark).answers(Answer::NOT_TRACED, &[2])
    });
    let entered = MARKS.iter().map(|(about, mark)| {
        let case = example(&format!("an entry that is {about}"), &log(&[4, 0]));
        case.marked(0, *mark).answers(Answer::NOT_TRACED, &[2])
    });
    let all = untraced.chain(marked).chain(entered);
    all.chain(between()).collect()
}

fn example(about: &str, text: &[u8]) -> Case {
    Case::new(about, Mode::Unwrapped, &EXAMPLE, &[0], text)
}

/// The first bad line decides; in one line 18, 19, 20, 21.
fn between() -> Vec<Case> {
    let untraced = [log(&[0, 6]), b"P 0005\n".to_vec()].concat();
    let malformed = [log(&[0]), b"P 0005\n".to_vec(), log(&[6])].concat();
    let forbidden = [log(&[0, 5]), b"P".to_vec()].concat();
    let full = u64::MAX;
    vec![
        example("not traced, and then malformed", &untraced).answers(Answer::NOT_TRACED, &[2]),
        example("malformed, and then not traced", &malformed).answers(Answer::MALFORMED_LOG, &[2]),
        example("no move, and then a part of a line", &forbidden)
            .answers(Answer::FORBIDDEN_MOVE, &[2]),
        example("no move, and its count full", &log(&[0, 5]))
            .counted(5, full)
            .answers(Answer::FORBIDDEN_MOVE, &[2]),
        example("not traced, and its count full", &log(&[0, 6]))
            .counted(6, full)
            .answers(Answer::NOT_TRACED, &[2]),
        example("a count full, and then no move", &log(&[0, 4, 7]))
            .counted(4, full)
            .answers(Answer::COUNT_FULL, &[2]),
        example(
            "a count full, and then malformed",
            &[&log(&[0])[..], b"\n"].concat(),
        )
        .counted(0, full)
        .answers(Answer::COUNT_FULL, &[1]),
    ]
}
