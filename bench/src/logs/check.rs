//! Holds the two sides against each other, before a log is measured.

use super::{Log, by_blocks, plain_by_blocks};
use crate::ours;
use crate::plain::blocks::Blocks;
use crate::plain::replay::{Refused, Replayer, Totals};
use compare::answer::Answer;
use pottagewing::IMAGE_LIMIT;

/// What a byte of a log is changed to.
const CHANGES: &[u8; 8] = b"0137AFf\n";

/// An answer and the counts.
type Outcome = (Answer, Vec<u64>);

/// As they are, and spoiled: of a thousand lines how many are interrupts and how many are free moves.
pub fn whole(logs: &[Log]) -> Result<[f64; 2], &'static str> {
    let mut totals = [0.0; 2];
    for log in logs {
        let answer = both(log)?.0;
        if !answer.done() {
            return Err("a log that is refused");
        }
        let [lines, interrupts, free, ..] = answer.values.map(|value| value as f64);
        totals[0] += interrupts / lines * 1e3 / logs.len() as f64;
        totals[1] += free / lines * 1e3 / logs.len() as f64;
        for (turn, byte) in CHANGES.iter().enumerate() {
            both(&log.changed(place(log, turn), *byte))?;
        }
    }
    Ok(totals)
}

/// After closing, the same as whole; and spoiled, the same as the plain side in blocks.
pub fn in_blocks(logs: &[Log], size: usize) -> Result<(), &'static str> {
    for log in logs {
        if both_in_blocks(log, size)? != both(log)? {
            return Err("a log in blocks");
        }
        for (turn, byte) in CHANGES.iter().enumerate() {
            both_in_blocks(&log.changed(place(log, turn), *byte), size)?;
        }
    }
    Ok(())
}

fn both_in_blocks(log: &Log, size: usize) -> Result<Outcome, &'static str> {
    let (mut counts, mut plain) = (vec![0; IMAGE_LIMIT], vec![0; IMAGE_LIMIT]);
    let answer = by_blocks(log, size, &mut counts);
    let told = plain_by_blocks(log, size, &mut Blocks::default(), &mut plain);
    match (answer, &counts) == (plain_answer(told), &plain) {
        true => Ok((answer, counts)),
        false => Err("a log in blocks"),
    }
}

/// Where a log is spoiled.
fn place(log: &Log, turn: usize) -> usize {
    (turn + 1) * 0x9E37_79B1 % log.text.len()
}

fn both(log: &Log) -> Result<Outcome, &'static str> {
    let (mut counts, mut plain) = (vec![0; IMAGE_LIMIT], vec![0; IMAGE_LIMIT]);
    let answer = ours::replay(log.traced(), &log.text, &mut counts);
    let told = log.plain(&mut Replayer::default(), &mut plain);
    match (answer, &counts) == (plain_answer(told), &plain) {
        true => Ok((answer, counts)),
        false => Err("replay"),
    }
}

fn plain_answer(told: Result<Totals, Refused>) -> Answer {
    let (number, value) = match told {
        Ok(totals) => {
            let values = [totals.lines, totals.interrupts, totals.free];
            return Answer::new(Answer::DONE, &values.map(|value| value as i64));
        }
        Err(Refused::Damaged(at)) => (Answer::DAMAGED, at as u64),
        Err(Refused::Malformed(line)) => (Answer::MALFORMED_LOG, line),
        Err(Refused::Untraced(line)) => (Answer::NOT_TRACED, line),
        Err(Refused::Forbidden(line)) => (Answer::FORBIDDEN_MOVE, line),
        Err(Refused::Full(line)) => (Answer::COUNT_FULL, line),
    };
    Answer::new(number, &[value as i64])
}
