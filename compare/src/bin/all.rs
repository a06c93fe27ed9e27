//! Every image of up to three bytes from every set of entries inside it: the run, the views over the marks that it
//! leaves, and where it was not cut off the listings, with arrivals and without, and these read back. The last line
//! counts the calls and those that differ; the exit status is 1 if any does.
//!
//! A plain program by documents 01 and 02 judges every call. The original is asked for every run, and for the views
//! of each that it traced to its end. Its listing takes it longer than all the rest together: it is asked for that of
//! every image of up to two bytes, and of three bytes where two are among 22 telling ones.
//!
//! Where two sets of entries leave the same marks, the listings are made once: they are given the same.
//!
//! All is in unwrapped mode, the original's: no wrapped target lies inside so short an image.

#[path = "all/listing.rs"]
mod listing;
#[path = "../ours.rs"]
#[allow(dead_code)]
mod ours;
#[path = "all/run.rs"]
mod run;
#[path = "all/sums.rs"]
mod sums;
#[path = "all/views.rs"]
mod views;

use compare::paper;
use std::process::ExitCode;
use std::sync::atomic::{AtomicUsize, Ordering};
use std::thread;
use sums::Sums;

/// The longest images.
const LONGEST: usize = 3;

fn main() -> ExitCode {
    paper::check_widths();
    paper::flow::check_table();
    let mut all = Sums::default();
    (0..LONGEST).for_each(|length| of_length(&mut all, &[], length));
    all.add(longest());
    match all.report() {
        true => ExitCode::SUCCESS,
        false => ExitCode::FAILURE,
    }
}

/// The longest images, by their first bytes, on as many threads as there are processors.
fn longest() -> Sums {
    let next = AtomicUsize::new(0);
    let work = || {
        let mut sums = Sums::default();
        while let Ok(first) = u8::try_from(next.fetch_add(1, Ordering::Relaxed)) {
            of_length(&mut sums, &[first], LONGEST);
        }
        sums
    };
    let threads = thread::available_parallelism().map_or(1, usize::from);
    let mut all = Sums::default();
    thread::scope(|scope| {
        let running: Vec<_> = (0..threads).map(|_| scope.spawn(work)).collect();
        for thread in running {
            all.add(thread.join().expect("a comparison does not panic"));
        }
    });
    all
}

/// Every image of some length that begins with these bytes.
fn of_length(sums: &mut Sums, beginning: &[u8], length: usize) {
    if beginning.len() == length {
        return one(sums, beginning);
    }
    for byte in 0..=255 {
        of_length(sums, &[beginning, &[byte]].concat(), length);
    }
}

/// One image from every set of entries.
fn one(sums: &mut Sums, image: &[u8]) {
    let positions = 0..image.len() as u32;
    let mut listed: Vec<Vec<u8>> = vec![];
    for set in 0..1 << image.len() {
        let inside = |at: &u32| set >> at & 1 == 1;
        let entries: Vec<u32> = positions.clone().filter(inside).collect();
        let ran = run::one(sums, image, &entries);
        views::all(sums, image, &ran);
        if ran.finished && !listed.contains(&ran.marks) {
            listing::all(sums, image, &entries, &ran);
            listed.push(ran.marks);
        }
    }
}
