//! The listing, the listing program, and a listing read back.

use super::{DECLINED, LONGEST_LISTING, MODE};
use crate::cases::Case;
use crate::clock::Sides;
use crate::ours;
use crate::plain::back::Reader;
use crate::plain::input::Input;
use crate::plain::listing::Lister;
use crate::plain::trace::Tracer;
use crate::plain::{list, unlist};
use crate::rows::tracing::run;
use compare::paper::Mode;
use pottagewing::{IMAGE_LIMIT, MOST_BYTES, MOST_ENTRIES, PRINTED_ROOM, UNLISTED_ROOM};
use std::hint::black_box;
use std::io::Write;
use waterbear::disasm;

/// The original lists only what it has traced in the same call: see `running_and_listing`.
pub fn listing(arrivals: bool) -> Sides<'static, Case> {
    let mut room = vec![0; LONGEST_LISTING];
    let mut lister = Lister::default();
    let choice = u32::from(arrivals);
    [
        Some(Box::new(move |case| {
            let answer = ours::listing(MODE, &case.image, &case.marks, choice, &mut room);
            black_box(answer);
        })),
        None,
        Some(Box::new(move |case| {
            lister.list(&case.image, &case.marks, arrivals);
            black_box(&lister.text);
        })),
    ]
}

/// Of the same marks as the other listings.
pub fn listing_wrapping() -> Sides<'static, Case> {
    let mut room = vec![0; LONGEST_LISTING];
    let ours = move |case: &Case| {
        let (image, marks) = (&case.image, &case.marks);
        black_box(ours::listing(
            Mode::Wrapping,
            image,
            marks,
            DECLINED,
            &mut room,
        ));
    };
    [Some(Box::new(ours)), None, None]
}

pub fn running_and_listing() -> Sides<'static, Case> {
    let (mut marks, mut order) = (vec![0; IMAGE_LIMIT], vec![0; IMAGE_LIMIT]);
    let mut room = vec![0; LONGEST_LISTING];
    let (mut tracer, mut lister) = (Tracer::default(), Lister::default());
    let mut text = vec![];
    [
        Some(Box::new(move |case| {
            run(MODE, case, &mut marks, &mut order);
            black_box(ours::listing(
                MODE,
                &case.image,
                &marks,
                DECLINED,
                &mut room,
            ));
        })),
        Some(Box::new(move |case| {
            text.clear();
            original_text(case, &mut text);
            black_box(&text);
        })),
        Some(Box::new(move |case| {
            tracer.run(&case.image, &case.entries, case.image.len());
            lister.list(&case.image, &tracer.marks, false);
            black_box(&lister.text);
        })),
    ]
}

/// The original's program has another input.
pub fn listing_text() -> Sides<'static, Case> {
    let mut room = vec![0; PRINTED_ROOM];
    let mut program = list::Program::default();
    [
        Some(Box::new(move |case| {
            black_box(ours::list_text(&case.input, &mut room));
        })),
        None,
        Some(Box::new(move |case| {
            black_box(program.list(&case.input));
        })),
    ]
}

/// The original has no such input.
pub fn parsing() -> Sides<'static, Case> {
    let (mut entries, mut image) = (vec![0; MOST_ENTRIES], vec![0; MOST_BYTES]);
    let mut input = Input::default();
    [
        Some(Box::new(move |case| {
            let answer = ours::parse(&case.input, &mut entries, &mut image);
            black_box((answer, &entries, &image));
        })),
        None,
        Some(Box::new(move |case| {
            let read = input.read(&case.input);
            black_box((read.is_ok(), &input));
        })),
    ]
}

/// The original reads no listing.
pub fn reading_back() -> Sides<'static, Case> {
    let (mut image, mut marks) = (vec![0; IMAGE_LIMIT], vec![0; IMAGE_LIMIT]);
    let (mut plain_image, mut plain_marks) = (image.clone(), marks.clone());
    let mut reader = Reader::default();
    [
        Some(Box::new(move |case| {
            let length = case.image.len() as u32;
            let text = &case.listing;
            let answer = ours::read_back(MODE, text, length, &mut image, &mut marks);
            black_box((answer, &image, &marks));
        })),
        None,
        Some(Box::new(move |case| {
            let length = case.image.len();
            let (image, marks) = (&mut plain_image[..length], &mut plain_marks[..length]);
            let answer = reader.read(&case.listing, image, marks);
            black_box((answer.is_ok(), image, marks));
        })),
    ]
}

pub fn unlisting() -> Sides<'static, Case> {
    let mut room = vec![0; UNLISTED_ROOM];
    let mut program = unlist::Program::default();
    [
        Some(Box::new(move |case| {
            let length = case.image.len() as u32;
            black_box(ours::unlist_text(&case.listing, length, &mut room));
        })),
        None,
        Some(Box::new(move |case| {
            black_box(program.unlist(&case.listing, case.image.len()));
        })),
    ]
}

/// The original's text, written as its command for disassembling does, but into memory.
fn original_text(case: &Case, text: &mut Vec<u8>) {
    let made = disasm::disassemble(false, &case.wide_entries(), &case.image);
    let statements = made.unwrap_or_else(|_| panic!("a game is not cut off"));
    for made in statements.to_vec() {
        write!(text, "{}", made.statement()).expect("memory takes all");
        if let Some(comment) = made.cmt() {
            write!(text, " ; {comment}").expect("memory takes all");
        }
        writeln!(text).expect("memory takes all");
    }
}
