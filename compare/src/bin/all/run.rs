//! One run without a limit.

use crate::ours;
use crate::sums::{Call, Sums};
use compare::answer::Answer;
use compare::original::traced::{self, Told};
use compare::paper::{Mode, tracer};
use compare::seen::Seen;
use waterbear::disasm::probe::Graph;

/// Visits after which the original is given up.
const VISITS: u64 = 1_000;
/// What stands in lent memory before.
const OLD_MARK: u8 = 9;
const OLD_PLACE: u32 = 9;

/// What a run left, and the original's graph where it was not cut off.
pub struct Ran {
    pub marks: Vec<u8>,
    pub finished: bool,
    pub graph: Option<Graph>,
}

/// What a run answers and leaves.
#[derive(PartialEq, Debug)]
struct Outcome {
    answer: Answer,
    marks: Vec<u8>,
    order: Vec<u32>,
}

/// A function that runs, ours or document 01's.
type Run = fn(Mode, &[u8], &mut [u8], &mut [u32], &[u32], &[u32], u32) -> Answer;

pub fn one(sums: &mut Sums, image: &[u8], entries: &[u32]) -> Ran {
    let plain = outcome(tracer::run, image, entries);
    let ours = outcome(ours::run, image, entries);
    let told = traced::trace(entries, image, VISITS);
    let input = || format!("{image:02X?} entries {entries:?}");
    if let Some(told) = &told {
        let (told, plain) = (told.under(u32::MAX), seen(told, &plain, image));
        sums.agree(&plain, &told, input);
    }
    let as_told = told.as_ref().map(|_| &plain);
    sums.judge(Call::Run, &plain, as_told, &ours, input);
    sums.given_up += u64::from(told.is_none());
    let finished = plain.answer.done();
    match finished {
        true => sums.finished += 1,
        false => sums.cut_off += 1,
    }
    let mut marks = plain.marks;
    marks.truncate(image.len());
    Ran {
        marks,
        finished,
        graph: told.and_then(|told| told.graph),
    }
}

/// One place more is lent than is needed.
fn outcome(run: Run, image: &[u8], entries: &[u32]) -> Outcome {
    let (mut marks, mut order) = (
        vec![OLD_MARK; image.len() + 1],
        vec![OLD_PLACE; image.len() + 1],
    );
    let mode = Mode::Unwrapped;
    let answer = run(mode, image, &mut marks, &mut order, entries, &[], u32::MAX);
    Outcome {
        answer,
        marks,
        order,
    }
}

/// What of the plain run the original tells too.
fn seen(told: &Told, plain: &Outcome, image: &[u8]) -> Seen {
    let marks = &plain.marks[..image.len()];
    let known = told.unfollowed.is_some();
    Seen::of(&plain.answer, marks, &plain.order, known)
}
