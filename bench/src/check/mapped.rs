//! The packed map.

use super::same;
use crate::cases::Case;
use crate::ours;
use crate::plain::{asked, maps};
use compare::answer::Answer;
use compare::original::viewed;
use compare::paper::map;

/// The map is the original's mask, packed; what is asked of it is what that mask says.
pub fn mapping(case: &Case) -> Result<(), &'static str> {
    let mask = viewed::mask(&case.graph, &case.image);
    let words = map::packed(&mask);
    let mut room = vec![9; words.len()];
    let answer = ours::map_build(&case.image, &case.marks, &mut room);
    let written = Answer::new(Answer::DONE, &[words.len() as i64]);
    same(answer == written && room == words, "map build")?;
    same(case.mask == mask, "the plain mask")?;
    same(case.map == words, "the plain map")?;
    let length = mask.len() as u32;
    let code = mask.iter().filter(|byte| **byte == 1).count();
    let data = mask.iter().position(|byte| *byte == 0);
    let data = data.unwrap_or(mask.len());
    let told = |value: usize| Answer::new(Answer::DONE, &[value as i64]);
    let count = ours::map_count(&words, length, 0, length);
    same(count == told(code), "map count")?;
    same(maps::count(&mask) as usize == code, "the plain count")?;
    let first = ours::map_first_data(&words, length, 0);
    same(first == told(data), "map first data")?;
    same(maps::first_data(&mask) == data, "the plain first data")
}

/// At every position, and after the last.
pub fn testing(case: &Case) -> Result<(), &'static str> {
    let length = case.image.len();
    for at in 0..=length {
        let ours = ours::map_test(&case.map, length as u32, at as u32);
        let told = match case.mask.get(at) {
            Some(masked) => Answer::new(Answer::DONE, &[i64::from(*masked)]),
            None => Answer::new(Answer::OUTSIDE, &[at as i64]),
        };
        same(ours == told, "map test")?;
        same(asked::test(&case.map, length, at) == told, "the plain test")?;
    }
    Ok(())
}

/// From an empty map on, at some positions, not all of them traced.
pub fn updating(case: &Case) -> Result<(), &'static str> {
    let (image, marks) = (&case.image, &case.marks);
    let (mut words, mut plain) = (vec![0; case.map.len()], vec![0; case.map.len()]);
    for at in &case.sampled {
        let ours = ours::map_update(image, marks, &mut words, *at);
        let told = asked::update(image, marks, &mut plain, *at as usize);
        same(ours == told && words == plain, "map update")?;
    }
    let of_map = words
        .iter()
        .zip(&case.map)
        .all(|(word, map)| word & !map == 0);
    same(of_map, "map update")
}
