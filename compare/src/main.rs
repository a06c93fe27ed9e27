//! Compares our archive with the original: `compare [SEED]`, or `compare --short [SEED]`, in a part of the calls. The last line
//! says how many calls were compared and how many differ; the exit status is 1 if any does.

mod back;
mod between;
mod changed;
mod decode;
mod dis;
mod edits;
mod encode;
mod joined;
mod lent;
mod lines;
mod list_text;
mod listing;
mod logs;
mod maps;
mod ours;
mod program;
mod report_text;
mod resolve;
mod rings;
mod room;
mod run;
mod share;
mod steps;
mod sweeps;
mod tally;
mod targets;
mod terms;
mod texts;
mod traces;
mod views;
mod words;
mod wrapping;

use compare::paper;
use compare::random::Random;
use std::process::ExitCode;

fn main() -> ExitCode {
    let mut words = std::env::args().skip(1).peekable();
    if words.next_if_eq("--short").is_some() {
        share::shorten();
    }
    let seed: u64 = match words.next().map(|word| word.parse()) {
        None => 1,
        Some(Ok(seed)) => seed,
        Some(Err(_)) => {
            eprintln!("compare: the seed is a number from 0 to 2^64 - 1");
            return ExitCode::from(2);
        }
    };
    println!("seed {seed}");
    paper::check_widths();
    paper::flow::check_table();
    let mut random = Random(seed);
    let mut tally = tally::Tally::new();
    decode::compare(&mut tally, &mut random);
    encode::compare(&mut tally, &mut random);
    resolve::compare(&mut tally, &mut random);
    targets::compare(&mut tally, &mut random);
    steps::compare(&mut tally, &mut random);
    traces::compare(&mut tally, &mut random);
    views::compare(&mut tally, &mut random);
    back::compare(&mut tally, &mut random);
    maps::compare(&mut tally, &mut random);
    list_text::compare(&mut tally, &mut random);
    sweeps::compare(&mut tally, &mut random);
    wrapping::compare(&mut tally, &mut random);
    joined::compare(&mut tally, &mut random);
    between::compare(&mut tally, &mut random);
    logs::compare(&mut tally, &mut random);
    report_text::compare(&mut tally, &mut random);
    dis::compare(&mut tally, &mut random);
    lines::compare(&mut tally, &mut random);
    match tally.report() {
        true => ExitCode::SUCCESS,
        false => ExitCode::FAILURE,
    }
}
