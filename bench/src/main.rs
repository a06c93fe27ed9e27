//! Measures ours, the original and a plain hand-written Rust side on the same images: `bench [SEED]`. The exit
//! status is 1 if their results differ, and then no more is measured; or if an aim is missed by more than 10 %, after all is
//! printed.

mod aims;
mod cases;
mod check;
mod clock;
mod earlier;
mod family;
mod games;
mod ladder;
mod logs;
#[path = "../../compare/src/ours.rs"]
#[allow(dead_code)]
mod ours;
mod plain;
mod programs;
mod report;
mod rows;
mod terms;
mod texts;

use cases::Case;
use compare::random::Random;
use std::process::ExitCode;

/// The lengths of images, and how many there are of each.
const LENGTHS: [(usize, usize); 3] = [(4_096, 128), (16_384, 64), (65_536, 32)];

fn main() -> ExitCode {
    if std::env::args().nth(1).as_deref() == Some(programs::PLAIN) {
        return match programs::plain() {
            Ok(()) => ExitCode::SUCCESS,
            Err(_) => ExitCode::FAILURE,
        };
    }
    let seed: u64 = match std::env::args().nth(1).map(|word| word.parse()) {
        None => 1,
        Some(Ok(seed)) => seed,
        Some(Err(_)) => {
            eprintln!("bench: the seed is a number from 0 to 2^64 - 1");
            return ExitCode::from(2);
        }
    };
    println!("seed {seed}");
    match all(&mut Random(seed)) {
        Ok(true) => ExitCode::SUCCESS,
        Ok(false) => ExitCode::FAILURE,
        Err(call) => {
            println!("differ: {call}");
            ExitCode::FAILURE
        }
    }
}

/// Whether the aims are reached, or the call that differs.
fn all(random: &mut Random) -> Result<bool, &'static str> {
    let (mut lengths, mut late) = (vec![], vec![]);
    for (length, count) in LENGTHS {
        let (cases, left_out) = cases::games(count, length, random);
        report::images(&cases, left_out);
        check::check(&cases)?;
        lengths.push(cases);
    }
    for (length, count) in LENGTHS {
        let cases = cases::late(count, length, random);
        report::late(&cases);
        cases.iter().try_for_each(check::mapped::mapping)?;
        late.push(cases);
    }
    let whole: Vec<&[Case]> = lengths.iter().map(Vec::as_slice).collect();
    let late: Vec<&[Case]> = late.iter().map(Vec::as_slice).collect();
    let mut table = rows::measure(&whole, &late);
    report::table(&table, &whole);
    family::measure(random)?;
    table.push(ladder::measure()?);
    table.extend(logs::measure(&whole, random)?);
    table.extend(terms::measure(random)?);
    report::curves(&table, &whole);
    Ok(earlier::is_first() || aims::judge(&table))
}
