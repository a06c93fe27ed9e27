//! What of a run can be seen in the original too: how it ended, the positions taken up in the order of
//! their first visits, and the traced set. How many positions were noted and not taken up cannot.

use crate::answer::Answer;
use pottagewing::Mark;

#[derive(PartialEq, Debug)]
pub enum End {
    Finished {
        steps: usize,
        noted: usize,
    },
    Stopped {
        steps: usize,
    },
    CutOff {
        position: u32,
        first: u8,
        missing: u8,
    },
}

#[derive(PartialEq, Debug)]
pub struct Seen {
    pub end: End,
    /// In the order of first visits.
    pub taken: Vec<u32>,
    /// By the marks 2 and 3, ascending.
    pub traced: Vec<u32>,
    /// By the mark 3, ascending, if that can be known.
    pub unfollowed: Option<Vec<u32>>,
}

impl Seen {
    /// Read off an answer, the marks of the image and the order list. `known` says whether the original
    /// tells which Jmpf were not followed.
    pub fn of(answer: &Answer, marks: &[u8], order: &[u32], known: bool) -> Seen {
        let traced = with(marks, &[Mark::Traced as u8, Mark::Flash as u8]);
        Seen {
            end: end(answer),
            taken: order[..traced.len()].to_vec(),
            traced,
            unfollowed: known.then(|| with(marks, &[Mark::Flash as u8])),
        }
    }
}

/// The positions that have one of these marks.
fn with(marks: &[u8], wanted: &[u8]) -> Vec<u32> {
    let marked = (0..).zip(marks);
    let found = marked.filter(|(_, mark)| wanted.contains(mark));
    found.map(|(at, _)| at).collect()
}

fn end(answer: &Answer) -> End {
    let [a, b, c, ..] = answer.values;
    match (answer.number, a) {
        (Answer::DONE, 1) => End::Finished {
            steps: b as usize,
            noted: c as usize,
        },
        (Answer::DONE, _) => End::Stopped { steps: b as usize },
        (_, position) => End::CutOff {
            position: position as u32,
            first: b as u8,
            missing: c as u8,
        },
    }
}
