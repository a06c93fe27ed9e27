//! The views over the marks of a run.

use super::forms::FORMS;
use super::trace::{is_exempt, is_traced, named};

const RUN: usize = pottagewing::RUN_LENGTH;

/// 1 on each byte of a traced instruction.
pub fn mask(image: &[u8], marks: &[u8], mask: &mut Vec<u8>) {
    mask.clear();
    mask.resize(image.len(), 0);
    for (at, mark) in marks.iter().enumerate() {
        if is_traced(*mark) {
            let size = FORMS[image[at] as usize].size as usize;
            mask[at..at + size].fill(1);
        }
    }
}

/// 1 at each position that a traced jump, branch or call names.
pub fn target_marks(image: &[u8], marks: &[u8], labels: &mut Vec<u8>) {
    labels.clear();
    labels.resize(image.len(), 0);
    for (at, mark) in marks.iter().enumerate() {
        if is_traced(*mark) && !is_exempt(image, marks, at) {
            let target = named(image, at, FORMS[image[at] as usize]);
            if let Some(label) = target.and_then(|target| labels.get_mut(target as usize)) {
                *label = 1;
            }
        }
    }
}

/// The traced positions that share a byte with the instruction at a traced position.
pub fn overlaps(image: &[u8], marks: &[u8], at: usize, found: &mut Vec<u32>) {
    found.clear();
    let is_traced_at = |at: usize| marks.get(at).is_some_and(|mark| is_traced(*mark));
    let size_at = |at: usize| FORMS[image[at] as usize].size as usize;
    if !is_traced_at(at) {
        return;
    }
    if at >= 1 && is_traced_at(at - 1) && size_at(at - 1) >= 2 {
        found.push(at as u32 - 1);
    }
    for after in at + 1..at + size_at(at) {
        if is_traced_at(after) {
            found.push(after as u32);
        }
    }
}

/// How many bytes of data stand from a position on, up to 16.
pub fn data_run(image: &[u8], mask: &[u8], at: usize) -> usize {
    let most = image.len().saturating_sub(at).min(RUN);
    let mask = mask.get(at..).unwrap_or(&[]).iter().take(most);
    mask.take_while(|masked| **masked == 0).count()
}
