//! What was compared and what differed.

use crate::logs::Logs;
use crate::program::Spoken;
use compare::answer::Answer;
use compare::original::{self, FORMS};
use compare::paper;
use compare::paper::report::Told;
use std::fmt::Debug;

#[derive(Clone, Copy, PartialEq, Debug)]
pub enum Call {
    Decode,
    Encode,
    Resolve,
    Targets,
    Start,
    Step,
    Run,
    Sweep,
    /// What our run says of our sweeps, where no B8 0D 21 stands.
    SweepAsRun,
    Mask,
    TargetMarks,
    Overlaps,
    Arrivals,
    DataRun,
    Listing,
    ListText,
    /// The built listing program.
    Program,
    ReadBack,
    MapBuild,
    MapTest,
    MapCount,
    MapFirstData,
    MapUpdate,
    /// What our unwrapped mode says of our wrapping one, where nothing leaves memory.
    ModesAlike,
    /// What our traces from two entry lists say of ours from the lists joined, where no B8 0D 21 stands.
    Joined,
    /// A log, whole and in blocks.
    Replay,
    Blocks,
    /// What two sets by the bytes alone say of our traces, where B8 0D 21 stands.
    Between,
    /// What a run may come to at most.
    Ceilings,
    /// A term, by the archive.
    ReportText,
    /// The built report.
    Report,
    /// What our listing program prints of an image says of its line in our report.
    ReportAsList,
    /// The built program for game files.
    Dis,
    /// One `I` line, from its bytes.
    CodeLine,
    /// One line of a listing read, and a whole one line by line.
    ReadLine,
    ReadLines,
    UnlistText,
    /// An input of the listing program taken apart.
    Parse,
}

const CALLS: [(Call, &str); 38] = [
    (Call::Decode, "decode"),
    (Call::Encode, "encode"),
    (Call::Resolve, "resolve"),
    (Call::Targets, "targets"),
    (Call::Start, "start"),
    (Call::Step, "step"),
    (Call::Run, "run"),
    (Call::Sweep, "sweep"),
    (Call::SweepAsRun, "sweep as run"),
    (Call::Mask, "mask"),
    (Call::TargetMarks, "target marks"),
    (Call::Overlaps, "overlaps"),
    (Call::Arrivals, "arrivals"),
    (Call::DataRun, "data run"),
    (Call::Listing, "listing"),
    (Call::ListText, "list text"),
    (Call::Program, "list, program"),
    (Call::ReadBack, "read back"),
    (Call::MapBuild, "map build"),
    (Call::MapTest, "map test"),
    (Call::MapCount, "map count"),
    (Call::MapFirstData, "map first data"),
    (Call::MapUpdate, "map update"),
    (Call::ModesAlike, "modes alike"),
    (Call::Joined, "joined lists"),
    (Call::Replay, "replay"),
    (Call::Blocks, "log in blocks"),
    (Call::Between, "between"),
    (Call::Ceilings, "ceilings"),
    (Call::ReportText, "report text"),
    (Call::Report, "report, program"),
    (Call::ReportAsList, "report as list"),
    (Call::Dis, "dis, program"),
    (Call::CodeLine, "code line"),
    (Call::ReadLine, "read line"),
    (Call::ReadLines, "read by lines"),
    (Call::UnlistText, "unlist text"),
    (Call::Parse, "parse"),
];

impl Call {
    /// What defines it.
    fn document(self) -> &'static str {
        match self {
            Call::Sweep | Call::SweepAsRun => "document 02",
            Call::ReadBack | Call::MapBuild | Call::MapTest | Call::MapCount => "document 02",
            Call::MapFirstData | Call::MapUpdate => "document 02",
            Call::ModesAlike | Call::Joined => "document 02",
            Call::Replay | Call::Blocks => "document 02",
            Call::Between | Call::Ceilings => "document 02",
            Call::ReportText | Call::Report | Call::ReportAsList => "document 02",
            Call::Dis => "its definitions",
            Call::ReadLine | Call::ReadLines | Call::UnlistText => "document 02",
            _ => "document 01",
        }
    }
}

/// Who says what the answer is to be.
#[derive(Clone, Copy, PartialEq)]
pub enum Judge {
    Original,
    /// Document 01 or 02, where the original has no such call: counted apart.
    Document,
    /// Document 02, of a call in wrapping mode, which the original does not have: counted apart too.
    Wrapping,
}

/// Counts of what was compared with the original, of what was ours alone, of that in wrapping mode, and of what
/// differed.
#[derive(Clone, Copy, Default)]
struct Counts {
    compared: u64,
    alone: u64,
    wrapping: u64,
    differ: u64,
    alone_differ: u64,
    wrapping_differ: u64,
}

/// As many as the documents have refusals, and 0; any other number is counted in the last place.
const NUMBERS: usize = Answer::SUM_FULL as usize + 2;
const SHOWN: u64 = 20;

/// What the runs came to.
#[derive(Default)]
pub struct Traces {
    pub finished: u64,
    pub stopped: u64,
    pub cut_off: u64,
    /// With a Jmpf that is not followed.
    pub unfollowed: u64,
    /// With a Jmpf after B8 0D that is followed, since it came first.
    pub followed: u64,
    /// The most positions taken up by one.
    pub most: usize,
    /// Given up in the original, for too many visits, and judged by document 01.
    pub capped: u64,
}

/// What the sweeps came to.
#[derive(Default)]
pub struct Sweeps {
    /// That found nothing to take, that took all at once, and that turned back.
    pub none: u64,
    pub one: u64,
    pub more: u64,
    /// The most sweeps that one image took.
    pub most: i64,
    /// With a position left waiting.
    pub waiting: u64,
    /// Of images with B8 0D 21, and those of them with other marks than a run leaves that is not cut off.
    pub flashing: u64,
    pub other: u64,
}

/// What the calls in wrapping mode came to, where the two modes are not alike.
#[derive(Default)]
pub struct Wrapping {
    /// Targets that are others than unwrapped, and addresses that only this mode takes.
    pub targets: u64,
    pub addresses: u64,
    /// Steps, runs and sweeps that left other marks.
    pub steps: u64,
    pub runs: u64,
    pub sweeps: u64,
    /// Target marks, arrivals and listings that are others.
    pub target_marks: u64,
    pub arrivals: u64,
    pub listings: u64,
    /// Listings that are malformed if they are read back unwrapped.
    pub malformed: u64,
}

/// What the calls with at least one pin came to.
#[derive(Default)]
pub struct Pinned {
    pub starts: u64,
    pub runs: u64,
    pub sweeps: u64,
    /// Runs that trace another position than without the pins, or leave one out that is not pinned itself.
    pub other: u64,
}

/// What the pairs of entry lists came to.
#[derive(Default)]
pub struct Joined {
    pub pairs: u64,
    /// With at least one pin.
    pub pinned: u64,
    /// Where each list traces a position that the other does not.
    pub each: u64,
    /// With a position left waiting.
    pub waiting: u64,
    /// In wrapping mode, with other marks than unwrapped.
    pub wrapped: u64,
}

/// What the images rich in B8 0D 21 came to, and the runs under ceilings.
#[derive(Default)]
pub struct Between {
    /// With B8 0D 21.
    pub images: u64,
    /// With at least one pin, and of any in wrapping mode with other sets than unwrapped.
    pub pinned: u64,
    pub wrapped: u64,
    /// Where the two sets differ, where they do so in positions that are cut off alone, and where they are equal though such a Jmpf is
    /// reached.
    pub differ: u64,
    pub cut_alone: u64,
    pub agree: u64,
    /// Where two orders traced different positions.
    pub orders: u64,
    /// Runs, those that were cut off, and those that reached each ceiling with at least one step.
    pub runs: u64,
    pub cut_off: u64,
    pub steps: u64,
    pub noted: u64,
    pub mask: u64,
    pub target_marks: u64,
}

/// The lines of the listings, by their letters.
#[derive(Default)]
struct Listings {
    lines: [u64; LETTERS.len()],
}

/// The listings read back: as they were written, and changed ones by what is expected of them.
#[derive(Default)]
pub struct Backs {
    pub whole: u64,
    pub taken: u64,
    pub refused: u64,
}

/// The inputs of the listing program, by what it prints for them.
#[derive(Default)]
pub struct Texts {
    listed: u64,
    cut_off: u64,
    malformed: u64,
    /// The most bytes of one, and printed for one.
    longest: usize,
    most: usize,
}

/// The terms, and what the plain report says of their images.
#[derive(Default)]
pub struct Terms {
    texts: u64,
    accepted: u64,
    /// Accepted ones of no bytes, those with a byte under more than one instruction, and with a target mark.
    empty: u64,
    shared: u64,
    named: u64,
    cut_off: u64,
    /// By the first line that is bad: the `N` line, the entries, a line of bytes.
    bad_name: u64,
    bad_entries: u64,
    bad_bytes: u64,
    /// The most bytes of one, and the most images.
    longest: usize,
    most: usize,
}

/// The runs of the program for game files, by what it prints.
#[derive(Default)]
pub struct Commands {
    listed: u64,
    long: u64,
    cut_off: u64,
    bad: u64,
    /// Told without a number: there is no such file, or no name, or too much of the words.
    pub unnumbered: u64,
    /// The most bytes listed in one.
    most: usize,
}

/// The letters of lines.
const LETTERS: [u8; 5] = *b"LOAID";

pub struct Tally {
    by_number: [[Counts; NUMBERS]; CALLS.len()],
    by_form: [[Counts; CALLS.len()]; FORMS],
    pub traces: Traces,
    pub sweeps: Sweeps,
    pub wrapping: Wrapping,
    pub pinned: Pinned,
    pub joined: Joined,
    pub between: Between,
    taken: [u64; FORMS],
    listed: [u64; FORMS],
    listings: Listings,
    pub backs: Backs,
    pub texts: Texts,
    pub logs: Logs,
    pub terms: Terms,
    pub commands: Commands,
    all: Counts,
}

impl Tally {
    pub fn new() -> Tally {
        Tally {
            by_number: [[Counts::default(); NUMBERS]; CALLS.len()],
            by_form: [[Counts::default(); CALLS.len()]; FORMS],
            traces: Traces::default(),
            sweeps: Sweeps::default(),
            wrapping: Wrapping::default(),
            pinned: Pinned::default(),
            joined: Joined::default(),
            between: Between::default(),
            taken: [0; FORMS],
            listed: [0; FORMS],
            listings: Listings::default(),
            backs: Backs::default(),
            texts: Texts::default(),
            logs: Logs::default(),
            terms: Terms::default(),
            commands: Commands::default(),
            all: Counts::default(),
        }
    }

    /// Counts the instructions that a run took up, by their first bytes.
    pub fn taken(&mut self, firsts: impl Iterator<Item = u8>) {
        for first in firsts {
            self.taken[original::form(first)] += 1;
        }
    }

    /// Counts the line of a listing: its letter, and of an instruction the first byte.
    pub fn line(&mut self, letter: u8, first: Option<u8>) {
        let place = LETTERS.iter().position(|known| *known == letter);
        self.listings.lines[place.expect("one of five letters")] += 1;
        if let Some(first) = first {
            self.listed[original::form(first)] += 1;
        }
    }

    /// Counts one call of ours, under the number that is expected of it. `first` is the byte that
    /// names the form, if the call has one.
    pub fn judge<T: PartialEq + Debug>(
        &mut self,
        (call, judge): (Call, Judge),
        first: Option<u8>,
        (number, expected): (u32, &T),
        ours: &T,
        input: impl FnOnce() -> String,
    ) {
        let differ = expected != ours;
        if differ {
            let who = match judge {
                Judge::Original => "the original",
                Judge::Document => call.document(),
                Judge::Wrapping => "document 02, wrapping",
            };
            self.show(|| format!("{}\n  {who}: {expected:?}\n  ours: {ours:?}", input()));
        }
        let number = (number as usize).min(NUMBERS - 1);
        self.by_number[call as usize][number].add(judge, differ);
        if let Some(first) = first {
            self.by_form[original::form(first)][call as usize].add(judge, differ);
        }
        self.all.add(judge, differ);
    }

    /// Notes that document 01's ranges, as this harness has them, do not fit the original.
    pub fn table_differs(&mut self, what: impl FnOnce() -> String) {
        self.show(|| format!("document 01 against the original: {}", what()));
        self.all.differ += 1;
    }

    /// Notes that the plain reader does not give back what was listed.
    pub fn reader_differs(&mut self, what: impl FnOnce() -> String) {
        self.show(|| format!("the plain reader against what was listed: {}", what()));
        self.all.differ += 1;
    }

    /// Notes that the plain map does not answer what its byte mask says, or is not the one built afresh.
    pub fn map_differs(&mut self, what: impl FnOnce() -> String) {
        self.show(|| format!("the plain map against the byte mask: {}", what()));
        self.all.differ += 1;
    }

    /// Notes that the plain engine does not sweep as often as an image was made for.
    pub fn sweeps_differ(&mut self, what: impl FnOnce() -> String) {
        self.show(|| format!("the plain sweeps against the image's plan: {}", what()));
        self.all.differ += 1;
    }

    /// Notes that the plain blocks do not come to what the plain replay says.
    pub fn blocks_differ(&mut self, what: impl FnOnce() -> String) {
        self.show(|| format!("the plain blocks against the plain replay: {}", what()));
        self.all.differ += 1;
    }

    fn show(&self, text: impl FnOnce() -> String) {
        if self.all.differ < SHOWN {
            println!("differ: {}", text());
        }
    }

    /// Prints the counts, and answers whether nothing differed.
    pub fn report(&self) -> bool {
        self.report_forms();
        self.report_numbers();
        self.traces.report();
        self.sweeps.report();
        self.listings.report();
        self.backs.report();
        self.texts.report();
        self.wrapping.report();
        self.pinned.report();
        self.joined.report();
        self.logs.report();
        self.between.report();
        self.terms.report();
        self.commands.report();
        let all = &self.all;
        let (alone, alone_differ) = (all.alone, all.alone_differ);
        let (wrapping, wrapping_differ) = (all.wrapping, all.wrapping_differ);
        println!(
            "ours alone (documents 01 and 02 judge): {alone}, differ {alone_differ}, counted below too"
        );
        println!(
            "in wrapping mode (document 02 judges): {wrapping}, differ {wrapping_differ}, counted below too"
        );
        println!("compared {}, differ {}", all.compared, all.differ);
        all.differ == 0
    }

    fn report_forms(&self) {
        println!(
            "calls with the original, ours alone, and in wrapping mode; 'taken' are instructions taken up in runs, 'listed' those in listings"
        );
        println!(
            "form      decode    encode   resolve   targets      step     taken    listed  differ"
        );
        for (form, calls) in self.by_form.iter().enumerate() {
            let counts = calls.map(|counts| counts.all());
            let [decode, encode, resolve, targets, _, step, ..] = counts;
            let differ: u64 = calls.iter().map(|counts| counts.differ).sum();
            let name = original::name(form);
            let (taken, listed) = (self.taken[form], self.listed[form]);
            println!(
                "{name:<7} {decode:>8}  {encode:>8}  {resolve:>8}  {targets:>8}  {step:>8}  {taken:>8}  {listed:>8}  {differ:>6}"
            );
        }
    }

    fn report_numbers(&self) {
        println!("call           number    compared  ours alone    wrapping  differ");
        for (call, name) in CALLS {
            for (number, counts) in self.by_number[call as usize].iter().enumerate() {
                let Counts {
                    compared,
                    alone,
                    wrapping,
                    differ,
                    ..
                } = counts;
                if counts.all() > 0 {
                    println!(
                        "{name:<14} {number:>6}  {compared:>10}  {alone:>10}  {wrapping:>10}  {differ:>6}"
                    );
                }
            }
        }
    }
}

impl Traces {
    fn report(&self) {
        let Traces {
            finished,
            stopped,
            cut_off,
            ..
        } = self;
        println!("runs: finished {finished}, stopped {stopped}, cut off {cut_off}");
        println!("most positions taken up by one: {}", self.most);
        let (unfollowed, followed, capped) = (self.unfollowed, self.followed, self.capped);
        println!("runs with a Jmpf after B8 0D: not followed {unfollowed}, followed {followed}");
        println!("runs given up in the original (document 01 judges): {capped}");
    }
}

impl Sweeps {
    fn report(&self) {
        let Sweeps {
            none,
            one,
            more,
            most,
            waiting,
            flashing,
            other,
        } = self;
        println!(
            "sweeps: that took nothing {none}, all at once {one}, in several {more}, the most for one image {most}; with a position left waiting {waiting}"
        );
        println!("sweeps with B8 0D 21: {flashing}, with other marks than a run {other}");
    }
}

impl Wrapping {
    fn report(&self) {
        let (targets, addresses) = (self.targets, self.addresses);
        println!(
            "wrapping: targets other than unwrapped {targets}, addresses that only it takes {addresses}"
        );
        let (steps, runs, sweeps) = (self.steps, self.runs, self.sweeps);
        println!("wrapping: other marks by steps {steps}, by runs {runs}, by sweeps {sweeps}");
        let (target_marks, arrivals) = (self.target_marks, self.arrivals);
        let (listings, malformed) = (self.listings, self.malformed);
        println!(
            "wrapping: other target marks {target_marks}, arrivals {arrivals}, listings {listings}; malformed if read back unwrapped {malformed}"
        );
    }
}

impl Pinned {
    fn report(&self) {
        let Pinned {
            starts,
            runs,
            sweeps,
            other,
        } = self;
        println!(
            "with pins: starts {starts}, runs {runs}, sweeps {sweeps}; runs with other marks than without pins {other}"
        );
    }
}

impl Joined {
    fn report(&self) {
        let Joined {
            pairs,
            pinned,
            each,
            waiting,
            wrapped,
        } = self;
        println!(
            "joined entry lists: pairs {pairs}, with pins {pinned}, where both lists trace what the other does not {each}, with positions waiting {waiting}"
        );
        println!("joined entry lists: wrapping, with other marks than unwrapped {wrapped}");
    }
}

impl Between {
    fn report(&self) {
        let (images, pinned, wrapped) = (self.images, self.pinned, self.wrapped);
        let (differ, cut_alone) = (self.differ, self.cut_alone);
        let (agree, orders) = (self.agree, self.orders);
        println!(
            "images with B8 0D 21: {images}, with pins {pinned}, with other sets than unwrapped {wrapped}"
        );
        println!(
            "images with B8 0D 21: where the two sets differ {differ}, in what is cut off alone {cut_alone}, \
             where orders traced different positions {orders}; agreeing with such a Jmpf reached {agree}"
        );
        let (runs, cut_off, steps) = (self.runs, self.cut_off, self.steps);
        let (noted, mask, target_marks) = (self.noted, self.mask, self.target_marks);
        println!(
            "ceilings: runs {runs}, cut off {cut_off}; reached by steps {steps}, by noted {noted}, \
             by the mask {mask}, by target marks {target_marks}"
        );
    }
}

impl Listings {
    fn report(&self) {
        let [labels, overlaps, arrivals, instructions, data] = self.lines;
        println!(
            "lines of listings: L {labels}, O {overlaps}, A {arrivals}, I {instructions}, D {data}"
        );
    }
}

impl Backs {
    fn report(&self) {
        let Backs {
            whole,
            taken,
            refused,
        } = self;
        println!(
            "listings read back: as written {whole}; changed, and to be taken {taken}, to be refused {refused}"
        );
    }
}

impl Texts {
    pub fn count(&mut self, text: &[u8], printed: &str) {
        let found = match printed {
            "R\t13\n" => &mut self.malformed,
            line if line.starts_with('R') => &mut self.cut_off,
            _ => &mut self.listed,
        };
        *found += 1;
        self.longest = self.longest.max(text.len());
        self.most = self.most.max(printed.len());
    }

    fn report(&self) {
        let (listed, cut_off, malformed) = (self.listed, self.cut_off, self.malformed);
        let (longest, most) = (self.longest, self.most);
        println!(
            "texts of the listing program: listed {listed}, cut off {cut_off}, malformed {malformed}; \
             the longest has {longest} bytes, the most printed are {most}"
        );
    }
}

impl Terms {
    pub fn count(&mut self, text: &[u8], images: usize) {
        self.texts += 1;
        self.longest = self.longest.max(text.len());
        self.most = self.most.max(images);
    }

    pub fn image(&mut self, told: &Told, lines: &[&[u8]]) {
        match told.figures {
            Ok([length, _, _, _, shared, named]) => {
                self.accepted += 1;
                self.empty += u64::from(length == 0);
                self.shared += u64::from(shared > 0);
                self.named += u64::from(named > 0);
            }
            Err(Answer::CUT_OFF) => self.cut_off += 1,
            Err(_) if told.name.is_none() => self.bad_name += 1,
            Err(_) => match paper::report::input(&lines[1..]) {
                Err(1) => self.bad_entries += 1,
                _ => self.bad_bytes += 1,
            },
        }
    }

    fn report(&self) {
        let (texts, longest, most) = (self.texts, self.longest, self.most);
        println!("terms: {texts}, the longest has {longest} bytes, the most images are {most}");
        let (accepted, empty) = (self.accepted, self.empty);
        let (shared, named, cut_off) = (self.shared, self.named, self.cut_off);
        println!(
            "images of terms: accepted {accepted}, of no bytes {empty}, with bytes under several instructions {shared}, \
             with target marks {named}; cut off {cut_off}"
        );
        let (name, entries, bytes) = (self.bad_name, self.bad_entries, self.bad_bytes);
        println!(
            "images of terms: malformed by the N line {name}, by the entries {entries}, by the bytes {bytes}"
        );
    }
}

impl Commands {
    pub fn count(&mut self, number: u32, spoken: &Spoken) {
        let found = match number {
            Answer::DONE => &mut self.listed,
            Answer::LONG_IMAGE => &mut self.long,
            Answer::CUT_OFF => &mut self.cut_off,
            _ => &mut self.bad,
        };
        *found += 1;
        self.most = self.most.max(spoken.lengths()[0]);
    }

    fn report(&self) {
        let (listed, long, cut_off) = (self.listed, self.long, self.cut_off);
        let (bad, unnumbered, most) = (self.bad, self.unnumbered, self.most);
        println!(
            "runs of dis: listed {listed}, too long {long}, cut off {cut_off}, not understood {bad}, told without a number {unnumbered}; \
             the most listed are {most} bytes"
        );
    }
}

impl Counts {
    fn all(&self) -> u64 {
        self.compared + self.alone + self.wrapping
    }

    fn add(&mut self, judge: Judge, differ: bool) {
        let differ = u64::from(differ);
        self.differ += differ;
        match judge {
            Judge::Original => self.compared += 1,
            Judge::Document => {
                self.alone += 1;
                self.alone_differ += differ;
            }
            Judge::Wrapping => {
                self.wrapping += 1;
                self.wrapping_differ += differ;
            }
        }
    }
}
