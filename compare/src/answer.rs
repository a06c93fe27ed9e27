//! An answer as our C face gives it: 0 or document 01's refusal number, and up to five values.

pub use pottagewing::Answer;

/// A decoded or resolved instruction.
pub fn found(form: usize, size: usize, operands: [i32; 3]) -> Answer {
    let [a, b, c] = operands.map(i64::from);
    Answer::new(Answer::DONE, &[form as i64, size as i64, a, b, c])
}
