//! What the term report prints of a text, by the archive's call and, for some of the texts, by the built program, which is fed in blocks.
//! The plain report by document 02 judges; and of each image, what our own listing program's work prints of it.

use crate::lent::Lent;
use crate::ours;
use crate::program::{Printed, Program};
use crate::share;
use crate::tally::{Call, Judge, Tally};
use crate::terms;
use crate::views::{self, Outcome};
use compare::answer::Answer;
use compare::paper::input;
use compare::paper::report::{self, Told};
use compare::random::Random;

/// Makes a text.
type Make = fn(&mut Random) -> Vec<u8>;
/// How texts are made, how many, and of how many one goes through the program too.
const TEXTS: [(Make, u64, u64); 6] = [
    (terms::good, 20_000, 64),
    (terms::mixed, 40_000, 64),
    (terms::spoiled, 30_000, 64),
    (terms::loose, 40_000, 64),
    (terms::at_limits, 400, 8),
    (terms::many, 3, 1),
];
/// The blocks in which a program is fed, but for those of every size.
const BLOCKS: [usize; 12] = [
    1, 2, 3, 5, 7, 16, 64, 4_095, 4_096, 16_385, 65_536, 1_000_000,
];
/// A text longer than this is not fed in short blocks.
const LONG: usize = 20_000;
const SHORTEST: usize = 1_000;
/// A text that is fed in blocks of every size has at least so many bytes.
const EVERY_SIZE: usize = 1_200;
/// Of so many images one goes through the built listing program.
const LISTED: u64 = 400;
/// More than the listing program prints.
const LISTING: usize = pottagewing::PRINTED_ROOM;
/// So much of a text is shown.
const SHOWN: usize = 240;

struct Reports<'a> {
    tally: &'a mut Tally,
    random: &'a mut Random,
    list: Option<Program>,
    report: Option<Program>,
    /// Room for a listing.
    room: Vec<u8>,
}

pub fn compare(tally: &mut Tally, random: &mut Random) {
    let mut reports = Reports {
        tally,
        random,
        list: Program::list(),
        report: Program::report(),
        room: vec![0; LISTING],
    };
    for (make, count, of) in TEXTS {
        for turn in 0..share::times(count) {
            let text = make(reports.random);
            let printed = report::output(&text);
            reports.one(&text, &printed);
            if turn % of == 0 {
                let block = reports.block(&text);
                reports.through(&text, &printed, block);
            }
        }
    }
    reports.every_size();
}

impl Reports<'_> {
    /// By the archive, in a room that is one byte too short, one that is as long, and one with some to spare, often so much that the
    /// report is made once.
    fn one(&mut self, text: &[u8], printed: &str) {
        let needed = printed.len();
        let spare = (1 + self.random.below(40) as usize) * 50;
        let shorter = self.random.below(needed as u64) as usize;
        let mut ours = vec![];
        for length in [shorter, needed - 1, needed + spare, needed] {
            let room = Lent::filled(length, self.random, |mixed| mixed as u8);
            let expected = match length < needed {
                true => {
                    let needed = [needed as i64];
                    Outcome(Answer::new(Answer::NO_ROOM, &needed), room.clone())
                }
                false => views::shows(&room, printed.as_bytes()),
            };
            let outcome = views::outcome(&room, |room| ours::report_text(text, room));
            let what = (Call::ReportText, Judge::Document);
            let number = expected.0.number;
            self.tally
                .judge(what, None, (number, &expected), &outcome, || shown(text));
            ours = outcome.1.part().to_vec();
        }
        self.as_listed(text, &ours);
    }

    /// Each line of ours against what our listing program prints of the same image.
    fn as_listed(&mut self, text: &[u8], ours: &[u8]) {
        let ours = String::from_utf8_lossy(ours).into_owned();
        let mut printed = ours.split_inclusive('\n');
        let images = report::images(text);
        self.tally.terms.count(text, images.len());
        for lines in images {
            let line = printed.next().unwrap_or("nothing").to_string();
            let told = report::told(&lines);
            self.tally.terms.image(&told, &lines);
            if told.name.is_some() {
                self.as_one_listed(&lines, told, &line);
            }
        }
    }

    fn as_one_listed(&mut self, lines: &[&[u8]], told: Told, line: &str) {
        let input = report::listed(&lines[1..]);
        let length = input::parse(&input).map_or(0, |input| input.image.len());
        let mut listings = vec![self.listing(&input)];
        if let Some(list) = &self.list
            && self.random.below(LISTED) == 0
        {
            listings.push(list.print(&input).shown());
        }
        for listing in listings {
            let figures = report::of_listing(&listing, length);
            let number = figures.err().unwrap_or(0);
            let name = told.name.clone();
            let expected = Told { name, figures }.line();
            let what = (Call::ReportAsList, Judge::Document);
            let line = line.to_string();
            self.tally
                .judge(what, None, (number, &expected), &line, || shown(&input));
        }
    }

    /// What our listing program's work prints.
    fn listing(&mut self, input: &[u8]) -> String {
        let answer = ours::list_text(input, &mut self.room);
        let written = &self.room[..answer.values[0] as usize];
        String::from_utf8_lossy(written).into_owned()
    }

    /// A size of blocks for a text.
    fn block(&mut self, text: &[u8]) -> usize {
        let short = |size: usize| text.len() > LONG && size < SHORTEST;
        loop {
            let size = match self.random.below(2) {
                0 => self.random.pick(&BLOCKS),
                _ => 1 + self.random.below(text.len() as u64 + 1) as usize,
            };
            if !short(size) {
                return size;
            }
        }
    }

    /// By the program.
    fn through(&mut self, text: &[u8], printed: &str, block: usize) {
        let Some(report) = &self.report else {
            return;
        };
        let expected = Printed::well(printed);
        let ours = report.print_in_blocks(text, block);
        let what = (Call::Report, Judge::Document);
        let input = || format!("in blocks of {block}: {}", shown(text));
        self.tally.judge(what, None, (0, &expected), &ours, input);
    }

    /// One text in blocks of 1, 2, 3, .. bytes, up to all of it and one more.
    fn every_size(&mut self) {
        let mut text = vec![];
        while text.len() < EVERY_SIZE {
            text.extend(terms::mixed(self.random));
        }
        let printed = report::output(&text);
        for block in (1..=text.len() + 1).step_by(share::stride()) {
            self.through(&text, &printed, block);
        }
    }
}

fn shown(text: &[u8]) -> String {
    let (count, beginning) = (text.len(), &text[..text.len().min(SHOWN)]);
    let beginning = String::from_utf8_lossy(beginning);
    format!("report of a text of {count} bytes {beginning:?}")
}
