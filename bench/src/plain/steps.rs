//! A trace step by step. As what is asked of one position, a step answers a number and values, and is not compiled into its caller.

use super::forms::{FORMS, Flow};
use super::trace::{TRACED, UNFOLLOWED, UNTOUCHED, WAITING, is_exempt, named, note};
use pottagewing::Answer;

/// Clears the marks and lets the entries wait: how many they are.
#[inline(never)]
pub fn start(marks: &mut [u8], entries: &[u32]) -> Answer {
    marks.fill(UNTOUCHED);
    let noted = entries
        .iter()
        .filter(|entry| note(marks, i64::from(**entry)));
    Answer::new(Answer::DONE, &[noted.count() as i64])
}

/// Takes up a waiting position: its new mark, and how many became waiting.
#[inline(never)]
pub fn step(image: &[u8], marks: &mut [u8], at: usize) -> Answer {
    let mark = marks.get(at).copied().unwrap_or(UNTOUCHED);
    if mark != WAITING {
        return Answer::new(Answer::NOT_WAITING, &[i64::from(mark)]);
    }
    let form = FORMS[image[at] as usize];
    let next = at + form.size as usize;
    if next > image.len() {
        let missing = next - image.len();
        let values = [at as i64, i64::from(image[at]), missing as i64];
        return Answer::new(Answer::CUT_OFF, &values);
    }
    if is_exempt(image, marks, at) {
        marks[at] = UNFOLLOWED;
        return Answer::new(Answer::DONE, &[i64::from(UNFOLLOWED), 0]);
    }
    marks[at] = TRACED;
    let mut noted = 0;
    if let Some(target) = named(image, at, form) {
        noted += i64::from(note(marks, target));
    }
    if matches!(form.flow, Flow::Next | Flow::Branch) {
        noted += i64::from(note(marks, next as i64));
    }
    Answer::new(Answer::DONE, &[i64::from(TRACED), noted])
}
