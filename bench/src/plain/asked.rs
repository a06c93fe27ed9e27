//! What is asked of one position. As ours does, each function answers a number and values, and none is compiled into its
//! caller: where there is little to do, the answer and the call are most of it. The marks may be anyone's who has no pins, so
//! those that look at them look at each one for damage first, as document 01 has it.

use super::damage::damaged;
use super::forms::FORMS;
use super::maps;
use super::trace::{is_traced, leads};
use super::views;
use pottagewing::Answer;

/// How many were found.
#[inline(never)]
pub fn overlaps(image: &[u8], marks: &[u8], at: usize, found: &mut Vec<u32>) -> Answer {
    if let Some(answer) = refused(image, marks) {
        return answer;
    }
    views::overlaps(image, marks, at, found);
    Answer::new(Answer::DONE, &[found.len() as i64])
}

/// How many traced positions were found from which control comes to this one.
#[inline(never)]
pub fn arrivals(image: &[u8], marks: &[u8], at: usize, found: &mut Vec<u32>) -> Answer {
    if let Some(answer) = refused(image, marks) {
        return answer;
    }
    found.clear();
    if at < image.len() {
        for (from, mark) in marks.iter().enumerate() {
            if is_traced(*mark) && leads(image, marks, from, at) {
                found.push(from as u32);
            }
        }
    }
    Answer::new(Answer::DONE, &[found.len() as i64])
}

/// Sets the bits of the instruction at a traced position: how many.
#[inline(never)]
pub fn update(image: &[u8], marks: &[u8], words: &mut [u64], at: usize) -> Answer {
    if let Some(answer) = refused(image, marks) {
        return answer;
    }
    if !marks.get(at).is_some_and(|mark| is_traced(*mark)) {
        return Answer::new(Answer::OUTSIDE, &[at as i64]);
    }
    let size = FORMS[image[at] as usize].size as usize;
    maps::set(words, at, size);
    Answer::new(Answer::DONE, &[size as i64])
}

/// Whether a position is code.
#[inline(never)]
pub fn test(words: &[u64], length: usize, at: usize) -> Answer {
    if at >= length {
        return Answer::new(Answer::OUTSIDE, &[at as i64]);
    }
    let is_code = words[at / 64] >> (at % 64) & 1;
    Answer::new(Answer::DONE, &[is_code as i64])
}

#[inline(never)]
pub fn data_run(image: &[u8], mask: &[u8], at: usize) -> Answer {
    Answer::new(Answer::DONE, &[views::data_run(image, mask, at) as i64])
}

fn refused(image: &[u8], marks: &[u8]) -> Option<Answer> {
    damaged(image, marks).map(|at| Answer::new(Answer::DAMAGED, &[at as i64]))
}
