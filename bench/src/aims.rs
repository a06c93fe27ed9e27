//! What is aimed at, and whether it is reached, once all is measured.

use crate::clock::{ORIGINAL, OURS, PLAIN, Times};
use crate::rows::{Measured, Row};

/// What ours is held against.
#[derive(Clone, Copy)]
enum By {
    /// So many times as long as plain, at most.
    Plain,
    /// So many times as long as ours takes for another row, at most.
    Ours(Row),
    /// So many times as fast as the original, or as plain, at least.
    FasterThanOriginal,
    FasterThanPlain,
}

/// The aims, each at the worst of its row's lengths.
const AIMS: [(Row, By, f64); 33] = [
    (Row::Decode, By::Plain, 1.45),
    (Row::Start, By::Plain, 1.5),
    (Row::Steps, By::Plain, 1.8),
    (Row::Run, By::Plain, 1.3),
    (Row::Run, By::FasterThanOriginal, 20.0),
    (Row::RunWrapping, By::Ours(Row::Run), 1.1),
    (Row::RunOfBranches, By::Plain, 1.8),
    (Row::Sweep, By::Plain, 1.5),
    (Row::Sweep, By::Ours(Row::Run), 4.0),
    (Row::Mask, By::Plain, 1.1),
    (Row::TargetMarks, By::Plain, 1.4),
    (Row::Overlaps, By::Plain, 1.3),
    (Row::Arrivals, By::Plain, 1.3),
    (Row::DataRuns, By::Plain, 1.5),
    (Row::Listing, By::Plain, 1.4),
    (Row::ListingWithArrivals, By::Plain, 1.4),
    (Row::ListingWithArrivals, By::Ours(Row::Listing), 3.0),
    (Row::ListingWrapping, By::Ours(Row::Listing), 1.1),
    (Row::RunAndListing, By::Plain, 1.4),
    (Row::ListText, By::Plain, 1.5),
    (Row::Parse, By::Plain, 1.5),
    (Row::ReadBack, By::Plain, 2.5),
    (Row::UnlistText, By::Plain, 2.2),
    (Row::MapBuild, By::Plain, 1.2),
    (Row::MapUpdate, By::Plain, 1.3),
    (Row::MapTest, By::Plain, 1.5),
    (Row::MapCount, By::Plain, 0.25),
    (Row::MapFirstData, By::FasterThanPlain, 20.0),
    (Row::Replay, By::Plain, 1.5),
    (Row::ReplayOfMany, By::Plain, 1.5),
    (Row::ReplayInBlocks, By::Plain, 1.5),
    (Row::ReportText, By::Plain, 1.5),
    (Row::ReportProgram, By::Plain, 1.5),
];
/// How many times as long ours may take for four times as much, from the second of three lengths to the third.
const LINEAR: f64 = 5.0;
/// Rows whose times say nothing of that: a sweep takes time by the number of sweeps, and of one image that is asked for the arrivals at many
/// positions the branch predictor learns the marks, if it is short.
const NOT_BY_LENGTH: [Row; 2] = [Row::Sweep, Row::Arrivals];
/// An aim that is missed by less than this does not fail.
const NEAR: f64 = 1.1;

/// Prints each aim with what was measured: whether none is missed by more than 10 %.
pub fn judge(table: &[Measured]) -> bool {
    println!("\naims, each at the worst of its lengths");
    println!("{:<44} {:>9} {:>18}", "", "worst", "aim");
    let judged = AIMS.iter().map(|(row, by, aim)| {
        let words = format!("{}, {}", row.name(), by.words());
        match worst(table, *row, *by) {
            Some(figure) => line(&words, figure, *aim, by.is_at_most()),
            None => {
                println!("{words:<44} {:>9} {aim:>18.2}  not measured", "-");
                true
            }
        }
    });
    let all = judged.fold(true, |all, is_held| all & is_held);
    let (row, step) = steepest(table);
    let words = format!("the steepest curve, {}", row.name());
    line(&words, step, LINEAR, true) & all
}

impl By {
    fn words(self) -> String {
        match self {
            By::Plain => "ours/plain".to_string(),
            By::Ours(other) => format!("to {}", other.name()),
            By::FasterThanOriginal => "original/ours".to_string(),
            By::FasterThanPlain => "plain/ours".to_string(),
        }
    }

    fn is_at_most(self) -> bool {
        matches!(self, By::Plain | By::Ours(_))
    }
}

/// Whether an aim is not missed by more than 10 %.
fn line(words: &str, figure: f64, aim: f64, at_most: bool) -> bool {
    let (kind, over) = match at_most {
        true => ("at most", figure / aim),
        false => ("at least", aim / figure),
    };
    let is_held = over < NEAR;
    let verdict = match over <= 1.0 {
        true => "reached",
        false if is_held => "missed by less than 10 %",
        false => "MISSED",
    };
    println!("{words:<44} {figure:>9.2} {kind:>10} {aim:>7.2}  {verdict}");
    is_held
}

/// The figure that an aim is held against: nothing where it was not measured.
fn worst(table: &[Measured], row: Row, by: By) -> Option<f64> {
    let times = times(table, row)?;
    let others = match by {
        By::Ours(other) => self::times(table, other)?,
        _ => times,
    };
    let figures = times.iter().zip(others).map(|(times, others)| match by {
        By::Plain => Some(times[OURS]? / times[PLAIN]?),
        By::Ours(_) => Some(times[OURS]? / others[OURS]?),
        By::FasterThanOriginal => Some(times[ORIGINAL]? / times[OURS]?),
        By::FasterThanPlain => Some(times[PLAIN]? / times[OURS]?),
    });
    let figures = figures.flatten();
    match by.is_at_most() {
        true => figures.max_by(f64::total_cmp),
        false => figures.min_by(f64::total_cmp),
    }
}

fn times(table: &[Measured], row: Row) -> Option<&[Times]> {
    let found = table.iter().find(|measured| measured.row == row);
    found.map(|measured| &measured.times[..])
}

/// The row whose third length takes ours longest by the second, of those that have three and take time by the length.
fn steepest(table: &[Measured]) -> (Row, f64) {
    let by_length = |measured: &&Measured| !NOT_BY_LENGTH.contains(&measured.row);
    let steps = table.iter().filter(by_length).filter_map(|measured| {
        let [_, shorter, longer] = &measured.times[..] else {
            return None;
        };
        Some((measured.row, longer[OURS]? / shorter[OURS]?))
    });
    let steepest = steps.max_by(|one, other| one.1.total_cmp(&other.1));
    steepest.expect("some row has three lengths")
}
