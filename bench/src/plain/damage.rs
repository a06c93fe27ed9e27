//! Damaged marks.

use super::forms::FORMS;
use super::trace::{JMPF, PINNED, TRACED, UNFOLLOWED};

/// The lowest position with a mark over 4, with a 3 off a Jmpf, or with a 2 or 3 on an instruction that the end cuts off.
pub fn damaged(image: &[u8], marks: &[u8]) -> Option<usize> {
    // The end cuts nothing off before the last two positions, so these marks are looked at together.
    let most = image.len().saturating_sub(2);
    let pairs = image[..most].iter().zip(marks);
    let any = pairs.fold(false, |any, (byte, mark)| any | is_wrong(*byte, *mark));
    let from = if any { 0 } else { most };
    (from..image.len()).find(|at| is_wrong(image[*at], marks[*at]) || is_cut(image, marks, *at))
}

/// Without a branch, so that the compiler takes many at a time.
fn is_wrong(byte: u8, mark: u8) -> bool {
    (mark > PINNED) | ((mark == UNFOLLOWED) & (byte != JMPF))
}

fn is_cut(image: &[u8], marks: &[u8], at: usize) -> bool {
    matches!(marks[at], TRACED | UNFOLLOWED)
        && at + FORMS[image[at] as usize].size as usize > image.len()
}
