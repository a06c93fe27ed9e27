//! Logs over images like games, whole and in blocks.

mod check;
mod walked;

use crate::cases::Case;
use crate::clock::{self, OURS, PLAIN, Sides};
use crate::ours::{self, Record};
use crate::plain::blocks::Blocks;
use crate::plain::replay::{Refused, Replayer, Totals};
use crate::report;
use crate::rows::{Measured, Row};
use compare::answer::Answer;
use compare::paper::replay::Traced;
use compare::random::Random;
use pottagewing::IMAGE_LIMIT;
use std::hint::black_box;
use walked::Log;

/// How many images of a length have a log.
const IMAGES: usize = 4;
/// The lines of a log over an image of each length.
const LINES: [usize; 3] = [62_500, 250_000, 1_000_000];
/// The lines of a log in blocks, over any: each block looks at the whole image.
const IN_BLOCKS: usize = 100_000;
/// The bytes of a block, where a log in blocks is held against the plain side.
const BLOCK: usize = 4_096;
/// The lines of a log, and the bytes of its blocks.
const CUT: [(usize, usize); 3] = [(IN_BLOCKS, BLOCK), (IN_BLOCKS, 64), (1_000, 1)];
/// So many entries at most.
const MANY: usize = 256;

/// Of images of each length, the longest last.
pub fn measure(lengths: &[&[Case]], random: &mut Random) -> Result<Vec<Measured>, &'static str> {
    let longest = lengths[lengths.len() - 1];
    let few = longest[0].entries.len();
    println!();
    let [of_few, of_many] = [few, MANY].map(|count| over(lengths, LINES, count, random));
    checked(&of_few, few)?;
    checked(&of_many, MANY)?;
    let blocks = over(lengths, [IN_BLOCKS; 3], few, random);
    blocks
        .iter()
        .try_for_each(|logs| check::in_blocks(logs, BLOCK))?;
    report::head("nanoseconds for a line of a log over an image");
    let table = vec![
        measured(Row::Replay, &of_few, whole()),
        measured(Row::ReplayOfMany, &of_many, whole()),
        measured(Row::ReplayInBlocks, &blocks, cut(BLOCK)),
    ];
    in_blocks(longest, few, random)?;
    empty(lengths, few, random);
    Ok(table)
}

/// Logs over images of each length, of so many lines.
fn over(
    lengths: &[&[Case]],
    lines: [usize; 3],
    entries: usize,
    random: &mut Random,
) -> Vec<Vec<Log>> {
    let lengths = lengths.iter().zip(lines);
    lengths
        .map(|(cases, lines)| logs(cases, lines, entries, random))
        .collect()
}

fn logs(cases: &[Case], lines: usize, entries: usize, random: &mut Random) -> Vec<Log> {
    let cases = cases.iter().take(IMAGES);
    cases
        .map(|case| Log::new(case, lines, entries, random))
        .collect()
}

fn checked(lengths: &[Vec<Log>], entries: usize) -> Result<(), &'static str> {
    for logs in lengths {
        let [interrupts, free] = check::whole(logs)?;
        println!(
            "{} KiB: {} logs of {} lines, {entries} entries; of 1,000 lines {interrupts:.1} interrupts, {free:.1} free moves",
            logs[0].length() / 1024,
            logs.len(),
            logs[0].lines()
        );
    }
    Ok(())
}

/// Prints the times for a line.
fn measured(row: Row, lengths: &[Vec<Log>], sides: Sides<Log>) -> Measured {
    let groups: Vec<&[Log]> = lengths.iter().map(Vec::as_slice).collect();
    let times = clock::measure(&groups, sides);
    for (logs, times) in lengths.iter().zip(&times) {
        let name = format!("{}, {} KiB", row.name(), logs[0].length() / 1024);
        report::line(&name, report::per(*times, logs[0].lines()));
    }
    Measured { row, times }
}

/// The original replays no log.
fn whole() -> Sides<'static, Log> {
    let (mut counts, mut plain_counts) = (vec![0; IMAGE_LIMIT], vec![0; IMAGE_LIMIT]);
    let mut replayer = Replayer::default();
    [
        Some(Box::new(move |log| {
            black_box(ours::replay(log.traced(), &log.text, &mut counts));
        })),
        None,
        Some(Box::new(move |log| {
            let told = log.plain(&mut replayer, &mut plain_counts);
            black_box(told.is_ok());
        })),
    ]
}

/// In blocks of so many bytes.
fn cut(size: usize) -> Sides<'static, Log> {
    let (mut counts, mut plain_counts) = (vec![0; IMAGE_LIMIT], vec![0; IMAGE_LIMIT]);
    let mut blocks = Blocks::default();
    [
        Some(Box::new(move |log: &Log| {
            black_box(by_blocks(log, size, &mut counts));
        })),
        None,
        Some(Box::new(move |log: &Log| {
            let told = plain_by_blocks(log, size, &mut blocks, &mut plain_counts);
            black_box(told.is_ok());
        })),
    ]
}

/// The answer after closing.
fn by_blocks(log: &Log, size: usize, counts: &mut [u64]) -> Answer {
    let mut record: Record = Default::default();
    ours::replay_open(&mut record);
    for block in log.text.chunks(size) {
        black_box(ours::replay_block(&mut record, log.traced(), block, counts));
    }
    ours::replay_close(&record)
}

fn plain_by_blocks(
    log: &Log,
    size: usize,
    blocks: &mut Blocks,
    counts: &mut [u64],
) -> Result<Totals, Refused> {
    let Traced {
        image,
        marks,
        entries,
        ..
    } = log.traced();
    blocks.open(entries);
    for block in log.text.chunks(size) {
        let told = blocks.block(block, image, marks, counts);
        black_box(told.is_ok());
    }
    blocks.close()
}

/// Against the same log whole: for a line, and what a block of ours costs besides its bytes.
fn in_blocks(cases: &[Case], few: usize, random: &mut Random) -> Result<(), &'static str> {
    println!("\nnanoseconds for a line of a log over an image of 64 KiB in blocks, {few} entries");
    println!(
        "{:<36} {:>10} {:>10} {:>10} {:>10} {:>22}",
        "", "whole", "blocks", "plain", "to plain", "more for a block, us"
    );
    for (lines, size) in CUT {
        let logs = logs(cases, lines, few, random);
        check::in_blocks(&logs, size)?;
        let groups = &[&logs[..]];
        let one = clock::measure(groups, whole())[0][OURS].expect("ours is measured");
        let times = clock::measure(groups, cut(size))[0];
        let [cut, plain] = [OURS, PLAIN].map(|side| times[side].expect("both are measured"));
        let blocks = logs[0].text.len().div_ceil(size);
        let line = |time: f64| time * 1e9 / lines as f64;
        println!(
            "{:<36} {:>10.2} {:>10.2} {:>10.2} {:>10.2} {:>22.3}",
            format!("{lines} lines, blocks of {size} bytes"),
            line(one),
            line(cut),
            line(plain),
            cut / plain,
            (cut - one) * 1e6 / blocks as f64
        );
    }
    Ok(())
}

/// A block of no bytes: all that a block costs besides them.
fn empty(lengths: &[&[Case]], few: usize, random: &mut Random) {
    println!("\nmicroseconds for a block of no bytes, ours");
    for cases in lengths {
        for count in [few, MANY] {
            let logs = logs(cases, 0, count, random);
            let times = clock::measure(&[&logs], taking_nothing())[0];
            let length = cases[0].image.len() / 1024;
            let name = format!("{length} KiB, {count} entries");
            report::line(&name, times);
        }
    }
}

fn taking_nothing() -> Sides<'static, Log> {
    let mut counts = vec![0; IMAGE_LIMIT];
    let mut record: Record = Default::default();
    ours::replay_open(&mut record);
    let ours = move |log: &Log| {
        black_box(ours::replay_block(
            &mut record,
            log.traced(),
            &[],
            &mut counts,
        ));
    };
    [Some(Box::new(ours)), None, None]
}
