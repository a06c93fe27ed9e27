//! The same logs in blocks, cut in several ways, with a block between them that is refused for what is lent with it. All
//! ways must leave the same record, and after closing what the plain replay of the whole log says.

use super::Given;
use crate::lent::Lent;
use crate::ours::{self, Record};
use crate::tally::{Call, Tally};
use compare::answer::Answer;
use compare::paper::blocks::Blocks;
use compare::paper::replay::{Told, Traced};
use compare::random::Random;

/// The most blocks of a log over a short image, and over a long one, all of which a block looks through.
const MOST: [(usize, usize); 3] = [(300, 250), (4_500, 60), (usize::MAX, 5)];
/// Logs up to this length are cut at every place, one in so many of them.
const SHORT: usize = 42;
const CUT_EVERYWHERE: u64 = 6;
/// A mark that damages.
const DAMAGE: u8 = 9;
/// An image that is too long.
static LONG: [u8; 65_537] = [0; 65_537];

/// How a log is cut and disturbed.
struct Plan {
    /// The lengths of the blocks.
    way: Vec<usize>,
    /// After this block the counts are looked at.
    middle: usize,
    /// Before this block one is refused that comes with something else lent.
    apart: usize,
    by: Lending,
}

/// What is lent otherwise: fewer counts, fewer marks, a damaged mark, an image that is too long.
#[derive(Clone, Copy)]
enum Lending {
    FewCounts,
    FewMarks,
    Damage,
    LongImage,
}

/// What a log in blocks is answered with and leaves.
#[derive(PartialEq, Debug)]
struct Fed {
    answers: Vec<Answer>,
    closed: Answer,
    counts: Lent<u64>,
    middle: Option<Lent<u64>>,
    /// Whether the record stayed where it is to stay.
    kept: bool,
    /// Where another way of cutting is known.
    record: Option<Record>,
}

/// What takes blocks, ours or the plain one, which has no record to be seen.
pub trait Taker {
    fn take(&mut self, traced: Traced, block: &[u8], counts: &mut [u64]) -> Answer;
    fn close(&self) -> Answer;
    fn record(&self) -> Option<Record>;
}

impl Taker for Blocks {
    fn take(&mut self, traced: Traced, block: &[u8], counts: &mut [u64]) -> Answer {
        Blocks::take(self, traced, block, counts)
    }

    fn close(&self) -> Answer {
        Blocks::close(self)
    }

    fn record(&self) -> Option<Record> {
        None
    }
}

/// Our record, with guards.
pub struct Ours {
    before: Lent<u64>,
    record: Lent<u64>,
}

impl Ours {
    pub fn open(random: &mut Random) -> Ours {
        let before = Lent::filled(size_of::<Record>() / 8, random, |mixed| mixed);
        let mut record = before.clone();
        ours::replay_open(words(&mut record));
        Ours { before, record }
    }

    /// A record that no call made.
    pub fn made_up(random: &mut Random, record: Record) -> Ours {
        let before = Lent::filled(record.len(), random, |mixed| mixed).with(&record);
        let record = before.clone();
        Ours { before, record }
    }

    /// Whether nothing was written around it.
    fn is_guarded(&self) -> bool {
        self.before.clone().with(self.record.part()) == self.record
    }
}

fn words(record: &mut Lent<u64>) -> &mut Record {
    record.lend().try_into().expect("as many words")
}

impl Taker for Ours {
    fn take(&mut self, traced: Traced, block: &[u8], counts: &mut [u64]) -> Answer {
        let answer = ours::replay_block(words(&mut self.record), traced, block, counts);
        assert!(self.is_guarded(), "a block writes beside its record");
        answer
    }

    fn close(&self) -> Answer {
        ours::replay_close(&self.record().expect("ours has one"))
    }

    fn record(&self) -> Option<Record> {
        Some(self.record.part().try_into().expect("as many words"))
    }
}

/// Two ways of cutting, and of some short logs every cut in two.
pub fn compare(tally: &mut Tally, random: &mut Random, given: &Given, told: Option<&Told>) {
    let length = given.text.len();
    let most = MOST
        .iter()
        .find(|(most, _)| given.traced.image.len() <= *most);
    let (_, most) = *most.expect("the last is for all");
    let way = way(random, length, most);
    let record = cut(tally, random, given, told, (way, None));
    let other = other(random, length, most);
    cut(tally, random, given, told, (other, record));
    if length <= SHORT && random.below(CUT_EVERYWHERE) == 0 {
        for at in 0..=length {
            cut(tally, random, given, told, (vec![at, length - at], record));
        }
    }
}

/// Blocks of one length, mostly of one byte where that is not too many.
fn way(random: &mut Random, length: usize, most: usize) -> Vec<usize> {
    let least = length / most + 1;
    let size = least + random.pick(&[0, 0, 0, 1, 2, 5, 6, 7, 12, 13]);
    let blocks = (0..length).step_by(size);
    blocks.map(|at| size.min(length - at)).collect()
}

/// Blocks of any length, with empty ones between them.
fn other(random: &mut Random, length: usize, most: usize) -> Vec<usize> {
    let mut way = vec![];
    let mut left = length;
    while left > 0 {
        let block = length / most + random.below(length as u64 / 3 + 2) as usize;
        way.push(block.min(left));
        left -= block.min(left);
    }
    for _ in 0..random.below(3) {
        way.insert(random.below(way.len() as u64 + 1) as usize, 0);
    }
    way
}

/// One way, held against the record of another: our record.
fn cut(
    tally: &mut Tally,
    random: &mut Random,
    given: &Given,
    told: Option<&Told>,
    (way, record): (Vec<usize>, Option<Record>),
) -> Option<Record> {
    let plan = Plan::new(random, way);
    let mut expected = plan.feed(&mut Blocks::default(), given);
    if told.is_some_and(|told| !agrees(given, told, &expected)) {
        tally.blocks_differ(|| given.shown());
    }
    let mut taker = Ours::open(random);
    let mut ours = plan.feed(&mut taker, given);
    expected.record = record;
    ours.record = record.and(taker.record());
    let number = expected.closed.number;
    let what = (Call::Blocks, given.judge());
    let input = || format!("cut in {:?} {}", plan.way, given.shown());
    tally.judge(what, None, (number, &expected), &ours, input);
    tally.logs.count_blocks(&expected.answers, told.is_some());
    taker.record()
}

/// Whether the plain blocks come to what the plain replay of the whole says, and the counts to the lines before a refusal.
fn agrees(given: &Given, told: &Told, fed: &Fed) -> bool {
    let mut counts = given.counts.clone();
    told.add_to(counts.lend());
    fed.closed == told.answer() && fed.counts == counts
}

impl Plan {
    fn new(random: &mut Random, way: Vec<usize>) -> Plan {
        let any = way.len() as u64 + 1;
        let lendings = [
            Lending::FewCounts,
            Lending::FewCounts,
            Lending::FewMarks,
            Lending::Damage,
            Lending::LongImage,
        ];
        Plan {
            way,
            middle: random.below(any) as usize,
            apart: random.below(any) as usize,
            by: random.pick(&lendings),
        }
    }

    fn feed(&self, taker: &mut impl Taker, given: &Given) -> Fed {
        let mut counts = given.counts.clone();
        let (mut answers, mut kept) = (vec![], true);
        let (mut middle, mut held) = (None, None);
        let mut at = 0;
        for (index, length) in self.way.iter().enumerate() {
            let block = &given.text[at..at + length];
            if index == self.apart {
                let before = taker.record();
                answers.push(self.by.disturb(taker, given.traced, block, counts.lend()));
                kept &= taker.record() == before;
            }
            let answer = taker.take(given.traced, block, counts.lend());
            if is_held(&answer) {
                let held = held.get_or_insert_with(|| taker.record());
                kept &= *held == taker.record();
            }
            answers.push(answer);
            if index == self.middle {
                middle = Some(counts.clone());
            }
            at += length;
        }
        Fed {
            answers,
            closed: taker.close(),
            counts,
            middle,
            kept,
            record: None,
        }
    }
}

/// The refusal of a line, which later blocks are answered with.
pub fn is_held(answer: &Answer) -> bool {
    (Answer::MALFORMED_LOG..=Answer::COUNT_FULL).contains(&answer.number)
}

impl Lending {
    /// An image without bytes has no marks or counts to lack: its block is taken, as a block of no bytes.
    fn disturb(
        self,
        taker: &mut impl Taker,
        traced: Traced,
        block: &[u8],
        counts: &mut [u64],
    ) -> Answer {
        let length = traced.image.len();
        let fewer = length.saturating_sub(1);
        let block = if length == 0 { &[] } else { block };
        let (few, some) = (fewer.min(traced.marks.len()), fewer.min(counts.len()));
        let mut damaged = traced.marks.to_vec();
        if let Some(mark) = damaged.get_mut(length / 2) {
            *mark = DAMAGE;
        }
        let marks = match self {
            Lending::FewMarks => &damaged[..few],
            Lending::Damage => &damaged,
            _ => traced.marks,
        };
        let image = match self {
            Lending::LongImage => &LONG,
            _ => traced.image,
        };
        let counts = match self {
            Lending::FewCounts => &mut counts[..some],
            _ => counts,
        };
        let traced = Traced {
            image,
            marks,
            ..traced
        };
        taker.take(traced, block, counts)
    }
}
