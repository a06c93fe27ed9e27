//! Decoding and tracing.

use super::{MODE, read};
use crate::cases::Case;
use crate::clock::Sides;
use crate::ours;
use crate::plain::decode::decode;
use crate::plain::steps;
use crate::plain::sweep::Sweeper;
use crate::plain::trace::Tracer;
use compare::answer::Answer;
use compare::paper::Mode;
use pottagewing::{IMAGE_LIMIT, VALUES};
use std::hint::black_box;
use waterbear::disasm::probe;
use waterbear::instruction::Instr;

pub fn decoding() -> Sides<'static, Case> {
    [
        Some(Box::new(|case| {
            for at in 0..case.image.len() {
                read::<VALUES>(ours::decode(&case.image[at..]));
            }
        })),
        Some(Box::new(|case| {
            for at in 0..case.image.len() {
                black_box(Instr::decode(&case.image[at..]));
            }
        })),
        Some(Box::new(|case| {
            for at in 0..case.image.len() {
                _ = black_box(decode(&case.image[at..]));
            }
        })),
    ]
}

/// The original has no start of its own.
pub fn starting() -> Sides<'static, Case> {
    let (mut marks, mut plain_marks) = (vec![0; IMAGE_LIMIT], vec![0; IMAGE_LIMIT]);
    [
        Some(Box::new(move |case| {
            let answer = ours::start(&case.image, &mut marks, &case.entries, &[]);
            black_box((answer, &marks));
        })),
        None,
        Some(Box::new(move |case| {
            let marks = &mut plain_marks[..case.image.len()];
            let answer = steps::start(marks, &case.entries);
            black_box((answer, marks));
        })),
    ]
}

/// The original takes no single step.
pub fn stepping() -> Sides<'static, Case> {
    let (mut marks, mut plain_marks) = (vec![0; IMAGE_LIMIT], vec![0; IMAGE_LIMIT]);
    [
        Some(Box::new(move |case| {
            let (image, marks) = (&case.image, &mut marks[..case.image.len()]);
            ours::start(image, marks, &case.entries, &[]);
            for at in &case.order {
                read::<2>(ours::step(MODE, image, marks, *at));
            }
        })),
        None,
        Some(Box::new(move |case| {
            let (image, marks) = (&case.image, &mut plain_marks[..case.image.len()]);
            steps::start(marks, &case.entries);
            for at in &case.order {
                read::<2>(steps::step(image, marks, *at as usize));
            }
        })),
    ]
}

pub fn running() -> Sides<'static, Case> {
    let (mut marks, mut order) = (vec![0; IMAGE_LIMIT], vec![0; IMAGE_LIMIT]);
    let mut tracer = Tracer::default();
    [
        Some(Box::new(move |case| {
            black_box(run(MODE, case, &mut marks, &mut order));
        })),
        Some(Box::new(|case| {
            let graph = probe::trace_without_limit(&case.wide_entries(), &case.image);
            black_box(graph.is_ok());
        })),
        Some(Box::new(move |case| {
            black_box(tracer.run(&case.image, &case.entries, case.image.len()));
        })),
    ]
}

/// From entry 0, without the original.
pub fn running_alone() -> Sides<'static, Vec<u8>> {
    let (mut marks, mut order) = (vec![0; IMAGE_LIMIT], vec![0; IMAGE_LIMIT]);
    let mut tracer = Tracer::default();
    [
        Some(Box::new(move |image| {
            let ran = ours::run(MODE, image, &mut marks, &mut order, &[0], &[], u32::MAX);
            black_box(ran);
        })),
        None,
        Some(Box::new(move |image| {
            black_box(tracer.run(image, &[0], image.len()));
        })),
    ]
}

/// The original does not sweep.
pub fn sweeping() -> Sides<'static, Case> {
    let mut marks = vec![0; IMAGE_LIMIT];
    let mut sweeper = Sweeper::default();
    [
        Some(Box::new(move |case| {
            black_box(ours::sweep(
                MODE,
                &case.image,
                &mut marks,
                &case.entries,
                &[],
            ));
        })),
        None,
        Some(Box::new(move |case| {
            black_box(sweeper.sweep(&case.image, &case.entries));
        })),
    ]
}

/// From entry 0.
pub fn sweeping_alone() -> Sides<'static, Vec<u8>> {
    let mut marks = vec![0; IMAGE_LIMIT];
    let mut sweeper = Sweeper::default();
    [
        Some(Box::new(move |image| {
            black_box(ours::sweep(MODE, image, &mut marks, &[0], &[]));
        })),
        None,
        Some(Box::new(move |image| {
            black_box(sweeper.sweep(image, &[0]));
        })),
    ]
}

pub fn run(mode: Mode, case: &Case, marks: &mut [u8], order: &mut [u32]) -> Answer {
    let (image, entries) = (&case.image, &case.entries);
    ours::run(mode, image, marks, order, entries, &[], image.len() as u32)
}

pub fn running_wrapping() -> Sides<'static, Case> {
    let (mut marks, mut order) = (vec![0; IMAGE_LIMIT], vec![0; IMAGE_LIMIT]);
    let ours = move |case: &Case| {
        black_box(run(Mode::Wrapping, case, &mut marks, &mut order));
    };
    [Some(Box::new(ours)), None, None]
}
