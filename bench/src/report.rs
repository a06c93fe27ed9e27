//! What is printed.

use crate::cases::Case;
use crate::clock::{ORIGINAL, OURS, PLAIN, Times};
use crate::plain::maps;
use crate::rows::Measured;

const HEAD: &str =
    "                                   ours     original        plain  original/ours  ours/plain";

/// What the images of a length are like.
pub fn images(cases: &[Case], left_out: usize) {
    let count = cases.len();
    let length = cases[0].image.len();
    let visits: u64 = cases.iter().map(|case| case.visits).sum();
    let masks = cases.iter().flat_map(|case| case.graph.mask(&case.image));
    let covered = masks.filter(|masked| *masked).count();
    let sweeps: usize = cases.iter().map(|case| case.sweeps).sum();
    println!(
        "{} KiB: {count} images, {:.0} instructions each, {:.0} % of the bytes are code; \
         the original takes a position up {:.2} times; {:.1} sweeps; left out {left_out}",
        length / 1024,
        taken(cases),
        100.0 * covered as f64 / (length * count) as f64,
        visits as f64 / count as f64 / taken(cases),
        sweeps as f64 / count as f64,
    );
}

/// Of images whose data comes late: where it begins.
pub fn late(cases: &[Case]) {
    let count = cases.len();
    let length = cases[0].image.len();
    let firsts = cases.iter().map(|case| maps::first_data(&case.mask));
    let first = firsts.sum::<usize>() as f64 / count as f64;
    println!(
        "{} KiB, data late: {count} images, the first data byte at {first:.0}",
        length / 1024,
    );
}

/// The instructions of an image.
fn taken(cases: &[Case]) -> f64 {
    let all: usize = cases.iter().map(|case| case.order.len()).sum();
    all as f64 / cases.len() as f64
}

/// Of images of each length.
pub fn table(table: &[Measured], lengths: &[&[Case]]) {
    for (index, cases) in lengths.iter().enumerate() {
        let length = cases[0].image.len() / 1024;
        head(&format!("microseconds for an image of {length} KiB"));
        for measured in table {
            if let Some(times) = measured.times.get(index) {
                line(measured.row.name(), *times);
            }
        }
    }
}

/// How the times grow with the lengths.
pub fn curves(table: &[Measured], lengths: &[&[Case]]) {
    println!("\nhow many times as long: 16 KiB to 4 KiB, and 64 KiB to 16 KiB");
    println!("                                   ours              original             plain");
    println!("{:<28}  {:>7.2} {:>7.2}", "bytes", 4.0, 4.0);
    let taken: Vec<f64> = lengths.iter().map(|cases| taken(cases)).collect();
    let steps = [taken[1] / taken[0], taken[2] / taken[1]];
    println!(
        "{:<28}  {:>7.2} {:>7.2}",
        "instructions", steps[0], steps[1]
    );
    for Measured { row, times } in table.iter().filter(|row| row.times.len() > 1) {
        let step = |side: usize| {
            let at = |length: usize| times.get(length).and_then(|times| times[side]);
            format!("{:>7} {:>7}", ratio(at(1), at(0)), ratio(at(2), at(1)))
        };
        println!(
            "{:<28}  {}     {}     {}",
            row.name(),
            step(OURS),
            step(ORIGINAL),
            step(PLAIN)
        );
    }
}

pub fn head(words: &str) {
    println!("\n{words}");
    println!("{HEAD}");
}

pub fn line(name: &str, times: Times) {
    let [ours, original, plain] = times;
    println!(
        "{name:<28} {:>10}   {:>10}   {:>10}   {:>12}  {:>10}",
        micros(ours),
        micros(original),
        micros(plain),
        ratio(original, ours),
        ratio(ours, plain),
    );
}

/// The time for one of so many, by a thousand: what is shown as microseconds are nanoseconds.
pub fn per(times: Times, count: usize) -> Times {
    times.map(|time| time.map(|time| time * 1e3 / count as f64))
}

/// How many times as long one takes as the other, for ours and for the plain side.
pub fn against(name: &str, one: Times, other: Times) {
    println!(
        "{name:<28} {:>10}   {:>10}   {:>10}",
        ratio(one[0], other[0]),
        "-",
        ratio(one[2], other[2]),
    );
}

fn micros(time: Option<f64>) -> String {
    time.map_or("-".to_string(), |time| format!("{:.2}", time * 1e6))
}

fn ratio(one: Option<f64>, other: Option<f64>) -> String {
    match (one, other) {
        (Some(one), Some(other)) => format!("{:.2}", one / other),
        _ => "-".to_string(),
    }
}
