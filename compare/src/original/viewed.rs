//! What the original shows of a whole trace, as far as it lies inside the image.

use crate::answer::Answer;
use waterbear::disasm::probe::{self, Graph};

/// The longest data run that the original prints.
const RUN: usize = pottagewing::RUN_LENGTH;

pub fn mask(graph: &Graph, image: &[u8]) -> Vec<u8> {
    graph.mask(image).into_iter().map(u8::from).collect()
}

/// The labels inside the image.
pub fn target_marks(graph: &Graph, image: &[u8]) -> Vec<u8> {
    let mut marks = vec![0; image.len()];
    let labels = graph.labels().into_iter();
    labels
        .filter(|at| *at < image.len())
        .for_each(|at| marks[at] = 1);
    marks
}

pub fn overlaps(graph: &Graph, position: u32) -> Vec<u32> {
    words(graph.overlaps(position as usize))
}

/// The `jump_from` set of a position inside the image; where it lies outside, document 01 has none.
pub fn arrivals(graph: &Graph, image: &[u8], position: u32) -> Option<Vec<u32>> {
    let at = position as usize;
    (at < image.len()).then(|| words(graph.arrivals(at)))
}

/// Nothing where the original has no answer: a position past the end, or a mask that is too short.
pub fn data_run(image: &[u8], mask: &[u8], position: u32) -> Option<Answer> {
    let at = position as usize;
    if at > image.len() || mask.len() < image.len() {
        return None;
    }
    let mask: Vec<bool> = mask.iter().map(|byte| *byte != 0).collect();
    let run = probe::data_run(image, &mask, at, RUN);
    assert!(image[at..].starts_with(run), "it begins at the position");
    Some(Answer::new(Answer::DONE, &[run.len() as i64]))
}

fn words(positions: Vec<usize>) -> Vec<u32> {
    positions.into_iter().map(|at| at as u32).collect()
}
