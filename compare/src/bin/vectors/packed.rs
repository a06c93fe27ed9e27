//! Short images, their entries, and what is left of lent memory, packed into the numbers of a line.

use compare::answer::Answer;

/// The longest image, and the lengths of the lent marks and order list.
pub const LONGEST: usize = 10;
/// What stands in the lent memory before.
pub const OLD_MARK: u8 = 9;
pub const OLD_PLACE: u32 = 15;
/// Two entries are always given; those past the list lie outside of every image.
const OUTSIDE: u32 = u32::MAX;

pub fn entries(listed: &[u32]) -> [u32; 2] {
    [0, 1].map(|at| listed.get(at).copied().unwrap_or(OUTSIDE))
}

pub fn given(image: &[u8], entries: [u32; 2]) -> [i64; 5] {
    let byte = |at: usize| i64::from(image.get(at).copied().unwrap_or(0));
    let (first, second) = (
        packed((0..5).map(byte), 256),
        packed((5..10).map(byte), 256),
    );
    let [a, b] = entries.map(i64::from);
    [image.len() as i64, first, second, a, b]
}

/// Three values of an answer, and what it left.
pub fn left(answer: &Answer, order: &[u32; LONGEST], marks: &[u8; LONGEST]) -> Answer {
    let [a, b, c, ..] = answer.values;
    let places = packed(order.iter().map(|place| i64::from(*place)), 16);
    let values = packed(marks.iter().map(|mark| i64::from(*mark)), 16);
    Answer::new(answer.number, &[a, b, c, places, values])
}

/// The numbers as the digits of one, the first the highest.
fn packed(digits: impl Iterator<Item = i64>, base: i64) -> i64 {
    digits.fold(0, |number, digit| number * base + digit)
}
