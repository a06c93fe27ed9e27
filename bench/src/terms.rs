//! Terms of images like games, reported by ours and by the plain side.

use crate::clock::{self, Sides};
use crate::games;
use crate::ours;
use crate::plain::report::Reporter;
use crate::programs;
use crate::report;
use crate::rows::{Measured, Row};
use crate::texts;
use compare::answer::Answer;
use compare::paper;
use compare::random::Random;
use std::hint::black_box;

/// How many images a term has, and of how many bytes; the last is four times the one before it.
const TERMS: [(usize, usize); 3] = [(MOST, 4_096), (MOST / 4, LENGTH), (MOST, LENGTH)];
const MOST: usize = 1_000;
const LENGTH: usize = pottagewing::MOST_BYTES;
/// For each image and one more: more than a line can have, the one of the sums too, so that ours need not count them first.
const LINE: usize = 256;
/// Images of the term that is changed at some places before anything is measured.
const FEW: usize = 3;
const CHANGES: &[u8; 8] = b"0\n\n\tNaF-";

pub fn measure(random: &mut Random) -> Result<Vec<Measured>, &'static str> {
    let terms = TERMS.map(|(images, length)| term(images, length, random));
    terms.iter().try_for_each(|text| same(text))?;
    let few = term(FEW, LENGTH, random);
    for turn in 0..1_000 {
        let mut changed = few.clone();
        let at = random.below(changed.len() as u64) as usize;
        changed[at] = CHANGES[turn % CHANGES.len()];
        same(&changed)?;
    }
    report::head("nanoseconds for an image of a term, report text");
    let groups: Vec<&[Vec<u8>]> = terms.iter().map(std::slice::from_ref).collect();
    let times = clock::measure(&groups, sides());
    for ((images, length), times) in TERMS.iter().zip(&times) {
        let name = format!("{images} images of {} KiB", length / 1024);
        report::line(&name, report::per(*times, *images));
    }
    let row = Row::ReportText;
    let text = Measured { row, times };
    let program = programs::measure(&terms[2], MOST)?;
    Ok([Some(text), program].into_iter().flatten().collect())
}

/// As the report reads it.
fn term(images: usize, length: usize, random: &mut Random) -> Vec<u8> {
    let mut text = String::new();
    for index in 0..images {
        let image = games::image(length, random);
        let input = texts::input(&games::ENTRIES, &image);
        text += &format!("N\tgame{index}\n{input}\n");
    }
    text.into_bytes()
}

/// The two sides, and the plain report by document 02, print the same.
fn same(text: &[u8]) -> Result<(), &'static str> {
    let mut room = vec![0; LINE * (MOST + 1)];
    let mut reporter = Reporter::default();
    reporter.report(text);
    let printed = &reporter.printed;
    let answer = ours::report_text(text, &mut room);
    let written = Answer::new(Answer::DONE, &[printed.len() as i64]);
    let by_paper = paper::report::output(text);
    match answer == written && room.starts_with(printed) && by_paper.as_bytes() == printed {
        true => Ok(()),
        false => Err("report"),
    }
}

/// The original reports no term.
fn sides() -> Sides<'static, Vec<u8>> {
    let mut room = vec![0; LINE * (MOST + 1)];
    let mut reporter = Reporter::default();
    [
        Some(Box::new(move |text| {
            black_box(ours::report_text(text, &mut room));
        })),
        None,
        Some(Box::new(move |text| {
            reporter.report(text);
            black_box(&reporter.printed);
        })),
    ]
}
