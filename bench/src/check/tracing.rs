//! Decoding and tracing.

use super::same;
use crate::cases::Case;
use crate::ours;
use crate::plain::decode::{self, decode};
use crate::plain::steps;
use crate::plain::sweep::Sweeper;
use crate::plain::trace::{Ended, Tracer, WAITING};
use crate::rows::MODE;
use compare::answer::{self, Answer};
use compare::original;
use compare::paper::{Mode, tracer};
use waterbear::disasm::probe;

/// At every position, of the bytes that follow none, one, two and all.
pub fn decoding(case: &Case) -> Result<(), &'static str> {
    for at in 0..case.image.len() {
        let rest = &case.image[at..];
        for length in [0, 1, 2, rest.len()] {
            let bytes = &rest[..length.min(rest.len())];
            let theirs = original::decode(bytes);
            same(ours::decode(bytes) == theirs, "decode")?;
            same(plain_decode(bytes) == theirs, "the plain decode")?;
        }
    }
    Ok(())
}

fn plain_decode(bytes: &[u8]) -> Answer {
    match decode(bytes) {
        Ok(found) => answer::found(found.form.into(), found.size.into(), found.operands),
        Err(decode::Refused::Nothing) => Answer::new(Answer::NOTHING, &[]),
        Err(decode::Refused::CutOff(first, missing)) => {
            let values = [0, i64::from(first), i64::from(missing)];
            Answer::new(Answer::CUT_OFF, &values)
        }
    }
}

pub fn running(case: &Case) -> Result<(), &'static str> {
    let length = case.image.len();
    let (mut marks, mut order) = (vec![9; length], vec![9; length]);
    let entries = &case.entries;
    let image = &case.image;
    let answer = ours::run(MODE, image, &mut marks, &mut order, entries, &[], u32::MAX);
    let noted = case.order.len();
    let finished = Answer::new(Answer::DONE, &[1, noted as i64, noted as i64]);
    same(answer == finished, "the answer of run")?;
    same(marks == case.marks, "the marks of run")?;
    same(order[..noted] == case.order, "the order of run")?;
    let mut tracer = Tracer::default();
    let ended = tracer.run(&case.image, entries, length);
    same(ended == Ended::Finished, "the plain run")?;
    drop(probe::trace(&case.wide_entries(), &case.image, u64::MAX));
    let first: Vec<u32> = words(probe::first_visits(&case.image));
    same(first == case.order, "the original's order")?;
    let mut traced = case.order.clone();
    traced.sort_unstable();
    same(
        words(case.graph.positions()) == traced,
        "the original's positions",
    )
}

/// Ours and the plain side from entry 0.
pub fn running_alone(image: &[u8]) -> Result<(), &'static str> {
    running_from(image, &[0])
}

/// The image up to some bytes, where most of them begin an instruction: two of three runs are cut off.
pub fn running_into_the_end(case: &Case) -> Result<(), &'static str> {
    for last in &case.sampled {
        running_from(&case.image[..=*last as usize], &case.entries)?;
    }
    Ok(())
}

/// Ours and the plain side: the answer, the marks, and the positions noted.
fn running_from(image: &[u8], entries: &[u32]) -> Result<(), &'static str> {
    let (mut marks, mut order) = (vec![9; image.len()], vec![9; image.len()]);
    let answer = ours::run(MODE, image, &mut marks, &mut order, entries, &[], u32::MAX);
    let mut tracer = Tracer::default();
    let ended = tracer.run(image, entries, image.len());
    order.truncate(tracer.order.len());
    same(answer == plain_answer(ended, &tracer), "the answer of run")?;
    same(marks == tracer.marks && order == tracer.order, "run")
}

/// Over the whole image, and up to some bytes as a run is.
pub fn sweeping(case: &Case) -> Result<(), &'static str> {
    sweeping_from(&case.image, &case.entries)?;
    for last in &case.sampled {
        sweeping_from(&case.image[..=*last as usize], &case.entries)?;
    }
    Ok(())
}

/// From entry 0: how many sweeps there are.
pub fn sweeping_alone(image: &[u8]) -> Result<usize, &'static str> {
    sweeping_from(image, &[0])
}

/// Ours and the plain side: the answer and the marks.
fn sweeping_from(image: &[u8], entries: &[u32]) -> Result<usize, &'static str> {
    let mut marks = vec![9; image.len()];
    let answer = ours::sweep(MODE, image, &mut marks, entries, &[]);
    let mut sweeper = Sweeper::default();
    let sweeps = sweeper.sweep(image, entries);
    let plain = Answer::new(Answer::DONE, &[sweeps as i64, sweeper.steps as i64]);
    same(answer == plain, "the answer of sweep")?;
    same(marks == sweeper.marks, "sweep")?;
    Ok(sweeps)
}

fn plain_answer(ended: Ended, tracer: &Tracer) -> Answer {
    let counts = |finished| [finished, tracer.steps as i64, tracer.order.len() as i64];
    match ended {
        Ended::Finished => Answer::new(Answer::DONE, &counts(1)),
        Ended::Stopped => Answer::new(Answer::DONE, &counts(0)),
        Ended::CutOff(position, first, missing) => {
            let values = [i64::from(position), i64::from(first), i64::from(missing)];
            Answer::new(Answer::CUT_OFF, &values)
        }
    }
}

fn words(positions: Vec<usize>) -> Vec<u32> {
    positions.into_iter().map(|at| at as u32).collect()
}

/// From a start each position that was noted, in their order.
pub fn stepping(case: &Case) -> Result<(), &'static str> {
    let (image, length) = (&case.image, case.image.len());
    let (mut marks, mut plain) = (vec![9; length], vec![9; length]);
    let answer = ours::start(image, &mut marks, &case.entries, &[]);
    let started = steps::start(&mut plain, &case.entries);
    same(answer == started && marks == plain, "start")?;
    for at in &case.order {
        stepping_once(image, &mut marks, &mut plain, *at)?;
    }
    same(marks == case.marks && plain == case.marks, "step")
}

/// At positions that do not wait, and at those where the image may end too early.
pub fn stepping_wrongly(case: &Case) -> Result<(), &'static str> {
    let (mut marks, mut plain) = (case.marks.clone(), case.marks.clone());
    for at in &case.sampled {
        stepping_once(&case.image, &mut marks, &mut plain, *at)?;
        let image = &case.image[..=*at as usize];
        let mut marks = vec![0; image.len()];
        marks[*at as usize] = WAITING;
        stepping_once(image, &mut marks.clone(), &mut marks, *at)?;
    }
    Ok(())
}

/// Ours and the plain side: the answer, and the mark there.
fn stepping_once(
    image: &[u8],
    marks: &mut [u8],
    plain: &mut [u8],
    at: u32,
) -> Result<(), &'static str> {
    let ours = ours::step(MODE, image, marks, at);
    let told = steps::step(image, plain, at as usize);
    let is_there = marks[at as usize] == plain[at as usize];
    same(ours == told && is_there, "step")
}

/// In wrapping mode, which neither of the other sides has: by the plain side of the comparison.
pub fn wrapping(case: &Case) -> Result<(), &'static str> {
    let (mode, image, entries) = (Mode::Wrapping, &case.image, &case.entries);
    let (mut marks, mut order) = (vec![9; image.len()], vec![9; image.len()]);
    let (mut plain_marks, mut plain_order) = (marks.clone(), order.clone());
    let answer = ours::run(mode, image, &mut marks, &mut order, entries, &[], u32::MAX);
    let plain = tracer::run(
        mode,
        image,
        &mut plain_marks,
        &mut plain_order,
        entries,
        &[],
        u32::MAX,
    );
    let ran = (answer, marks, order) == (plain, plain_marks, plain_order);
    same(ran, "run, wrapping")
}
