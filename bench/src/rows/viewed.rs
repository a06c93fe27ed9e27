//! The views over the marks of a run.

use super::MODE;
use crate::cases::Case;
use crate::clock::Sides;
use crate::ours;
use crate::plain::{asked, views};
use compare::answer::Answer;
use pottagewing::IMAGE_LIMIT;
use std::hint::black_box;

pub fn masking() -> Sides<'static, Case> {
    let mut room = vec![0; IMAGE_LIMIT];
    let mut mask = vec![];
    [
        Some(Box::new(move |case| {
            black_box(ours::mask(&case.image, &case.marks, &mut room));
        })),
        Some(Box::new(|case| {
            black_box(case.graph.mask(&case.image));
        })),
        Some(Box::new(move |case| {
            views::mask(&case.image, &case.marks, &mut mask);
            black_box(&mask);
        })),
    ]
}

pub fn marking() -> Sides<'static, Case> {
    let mut room = vec![0; IMAGE_LIMIT];
    let mut labels = vec![];
    [
        Some(Box::new(move |case| {
            let answer = ours::target_marks(MODE, &case.image, &case.marks, &mut room);
            black_box(answer);
        })),
        Some(Box::new(|case| {
            black_box(case.graph.count_labels());
        })),
        Some(Box::new(move |case| {
            views::target_marks(&case.image, &case.marks, &mut labels);
            black_box(&labels);
        })),
    ]
}

pub fn overlapping() -> Sides<'static, Case> {
    let mut room = [0; 3];
    let mut found = vec![];
    [
        Some(Box::new(move |case| {
            for at in &case.sampled {
                black_box(ours::overlaps(&case.image, &case.marks, *at, &mut room));
            }
        })),
        Some(Box::new(|case| {
            for at in &case.sampled {
                black_box(case.graph.overlaps(*at as usize));
            }
        })),
        Some(Box::new(move |case| {
            for at in &case.sampled {
                let answer = asked::overlaps(&case.image, &case.marks, *at as usize, &mut found);
                black_box((answer, &found));
            }
        })),
    ]
}

pub fn arriving() -> Sides<'static, Case> {
    let mut room = vec![0; IMAGE_LIMIT];
    let mut found = vec![];
    [
        Some(Box::new(move |case| {
            let (image, marks) = (&case.image, &case.marks);
            for at in &case.sampled {
                black_box(ours::arrivals(MODE, image, marks, *at, &mut room));
            }
        })),
        Some(Box::new(|case| {
            for at in &case.sampled {
                black_box(case.graph.arrivals(*at as usize));
            }
        })),
        Some(Box::new(move |case| {
            for at in &case.sampled {
                let answer = asked::arrivals(&case.image, &case.marks, *at as usize, &mut found);
                black_box((answer, &found));
            }
        })),
    ]
}

/// The original's data runs are of a mask of its own.
pub fn running_over_data() -> Sides<'static, Case> {
    [
        Some(Box::new(|case| {
            over_data(case, |at| {
                ours::data_run(&case.image, &case.mask, at as u32)
            });
        })),
        None,
        Some(Box::new(|case| {
            over_data(case, |at| asked::data_run(&case.image, &case.mask, at));
        })),
    ]
}

/// From each run to where the next may begin.
fn over_data(case: &Case, run: impl Fn(usize) -> Answer) {
    let mut at = 0;
    while at < case.image.len() {
        at += black_box(run(at).values[0]).max(1) as usize;
    }
}
