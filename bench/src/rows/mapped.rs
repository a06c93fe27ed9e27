//! The packed map. The original has none.

use super::read;
use crate::cases::Case;
use crate::clock::Sides;
use crate::ours;
use crate::plain::{asked, maps};
use pottagewing::{IMAGE_LIMIT, WORD_BITS};
use std::hint::black_box;

/// The words of the longest image.
const WORDS: usize = IMAGE_LIMIT / WORD_BITS;

pub fn building() -> Sides<'static, Case> {
    let mut room = vec![0; WORDS];
    let mut words = vec![];
    [
        Some(Box::new(move |case| {
            black_box(ours::map_build(&case.image, &case.marks, &mut room));
        })),
        None,
        Some(Box::new(move |case| {
            maps::build(&case.image, &case.marks, &mut words);
            black_box(&words);
        })),
    ]
}

pub fn updating() -> Sides<'static, Case> {
    let (mut words, mut plain_words) = (vec![0; WORDS], vec![0; WORDS]);
    [
        Some(Box::new(move |case| {
            for at in &case.sampled {
                let answer = ours::map_update(&case.image, &case.marks, &mut words, *at);
                black_box((answer, &words));
            }
        })),
        None,
        Some(Box::new(move |case| {
            for at in &case.sampled {
                let (image, marks, at) = (&case.image, &case.marks, *at as usize);
                let answer = asked::update(image, marks, &mut plain_words, at);
                black_box((answer, &plain_words));
            }
        })),
    ]
}

pub fn testing() -> Sides<'static, Case> {
    [
        Some(Box::new(|case| {
            let length = case.image.len() as u32;
            for at in 0..length {
                read::<1>(ours::map_test(&case.map, length, at));
            }
        })),
        None,
        Some(Box::new(|case| {
            let length = case.image.len();
            for at in 0..length {
                read::<1>(asked::test(&case.map, length, at));
            }
        })),
    ]
}

pub fn counting() -> Sides<'static, Case> {
    [
        Some(Box::new(|case| {
            let length = case.image.len() as u32;
            black_box(ours::map_count(&case.map, length, 0, length));
        })),
        None,
        Some(Box::new(|case| {
            black_box(maps::count(&case.mask));
        })),
    ]
}

pub fn finding_data() -> Sides<'static, Case> {
    [
        Some(Box::new(|case| {
            let length = case.image.len() as u32;
            black_box(ours::map_first_data(&case.map, length, 0));
        })),
        None,
        Some(Box::new(|case| {
            black_box(maps::first_data(&case.mask));
        })),
    ]
}
