//! The views over marks.

use super::same;
use crate::cases::Case;
use crate::ours;
use crate::plain::{asked, views};
use crate::rows::MODE;
use compare::original::viewed;

/// Damaged marks: over 4, and on most bytes a 3.
const DAMAGED: [u8; 2] = [5, 3];

pub fn viewing(case: &Case) -> Result<(), &'static str> {
    let (image, marks) = (&case.image, &case.marks);
    let mut room = vec![9; image.len()];
    let mut plain = vec![];
    ours::mask(image, marks, &mut room);
    views::mask(image, marks, &mut plain);
    let theirs = viewed::mask(&case.graph, image);
    same(room == theirs && plain == theirs, "mask")?;
    ours::target_marks(MODE, image, marks, &mut room);
    views::target_marks(image, marks, &mut plain);
    let theirs = viewed::target_marks(&case.graph, image);
    same(room == theirs && plain == theirs, "target marks")
}

/// The plain ones at every position; the others are asked of some.
pub fn overlapping(case: &Case) -> Result<(), &'static str> {
    let mut plain = vec![];
    for at in 0..case.image.len() {
        views::overlaps(&case.image, &case.marks, at, &mut plain);
        let theirs = viewed::overlaps(&case.graph, at as u32);
        same(plain == theirs, "the plain overlaps")?;
    }
    Ok(())
}

/// Overlaps and arrivals at some positions, against the original; and over a damaged mark, where they are refused.
pub fn asking(case: &Case) -> Result<(), &'static str> {
    for at in &case.sampled {
        let theirs = viewed::overlaps(&case.graph, *at);
        same(overlaps(case, &case.marks, *at)? == theirs, "overlaps")?;
        let theirs = viewed::arrivals(&case.graph, &case.image, *at);
        let arrived = arrivals(case, &case.marks, *at)?;
        same(Some(arrived) == theirs, "arrivals")?;
    }
    for (at, mark) in case.sampled.iter().zip(DAMAGED) {
        let mut marks = case.marks.clone();
        marks[*at as usize] = mark;
        overlaps(case, &marks, *at)?;
        arrivals(case, &marks, *at)?;
    }
    Ok(())
}

/// Ours, which are the plain ones.
fn overlaps(case: &Case, marks: &[u8], at: u32) -> Result<Vec<u32>, &'static str> {
    let (mut room, mut found) = (vec![9; 3], vec![]);
    let ours = ours::overlaps(&case.image, marks, at, &mut room);
    let plain = asked::overlaps(&case.image, marks, at as usize, &mut found);
    same(ours == plain && room.starts_with(&found), "overlaps")?;
    Ok(found)
}

fn arrivals(case: &Case, marks: &[u8], at: u32) -> Result<Vec<u32>, &'static str> {
    let (mut room, mut found) = (vec![9; case.image.len()], vec![]);
    let ours = ours::arrivals(MODE, &case.image, marks, at, &mut room);
    let plain = asked::arrivals(&case.image, marks, at as usize, &mut found);
    same(ours == plain && room.starts_with(&found), "arrivals")?;
    Ok(found)
}

/// Ours and the plain side at every position, the original at some.
pub fn running_over_data(case: &Case) -> Result<(), &'static str> {
    let (image, mask) = (&case.image, &case.mask);
    for at in 0..=image.len() {
        let plain = asked::data_run(image, mask, at);
        let ours = ours::data_run(image, mask, at as u32);
        same(ours == plain, "data run")?;
    }
    for at in &case.sampled {
        let ours = ours::data_run(image, mask, *at);
        same(Some(ours) == viewed::data_run(image, mask, *at), "data run")?;
    }
    Ok(())
}
