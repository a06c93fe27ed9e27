//! What is asked of a map, at and around the borders of words, of maps that were built and of words of any content.

use crate::ours;
use crate::tally::{Call, Judge, Tally};
use crate::views;
use compare::answer::Answer;
use compare::paper::map::{self as paper, Query};
use compare::random::Random;

/// So many of each map.
pub const QUERIES: u64 = 16;
/// Lengths of which every position and every stretch is asked for, the ones just outside too.
const WHOLE: [u32; 9] = [0, 1, 2, 63, 64, 65, 127, 128, 129];
/// Around the borders of words, and of memory.
const BORDERS: [u32; 12] = [0, 1, 2, 62, 63, 64, 65, 66, 127, 128, 129, 65_535];

/// At a border of words, beside the end, past it, or anywhere inside.
pub fn position(random: &mut Random, length: u32) -> u32 {
    match random.below(12) {
        0..3 => random.pick(&BORDERS),
        3 | 4 => (length + random.below(4) as u32).saturating_sub(2),
        5 => length / 64 * 64,
        6 => random.pick(&[length + 63, length + 64, 65_536, 65_537, u32::MAX]),
        7 | 8 => {
            let border = random.below(u64::from(length) / 64 + 1) as u32 * 64;
            (border + random.below(3) as u32).saturating_sub(1)
        }
        _ => random.below(u64::from(length.max(1))) as u32,
    }
}

/// A stretch may be empty, within a word, over some, up to the end, too long, or turned round.
pub fn query(random: &mut Random, length: u32) -> Query {
    let begin = position(random, length);
    match random.below(8) {
        0 | 1 => Query::Test(begin),
        2..5 => Query::FirstData(begin),
        _ => {
            let other = position(random, length);
            let end = match random.below(8) {
                0 => begin,
                1 => begin.saturating_add(random.below(200) as u32),
                2 => length,
                3 => return Query::Count(begin.max(other), begin.min(other)),
                _ => return Query::Count(begin.min(other), begin.max(other)),
            };
            Query::Count(begin, end)
        }
    }
}

/// Over words that no call built: bits of any content, past the image too.
pub fn of_words(tally: &mut Tally, random: &mut Random, length: u32) {
    for _ in 0..QUERIES {
        let length = match random.below(32) {
            0 => random.pick(&[65_536, 65_537, u32::MAX]),
            _ => length,
        };
        let needed = paper::needed(length.min(65_537) as usize);
        let count = views::room(random, needed);
        let words = words(random, count);
        let query = query(random, length.min(65_537));
        any_words(tally, &words, length, query);
    }
}

fn any_words(tally: &mut Tally, words: &[u64], length: u32, query: Query) {
    let expected = paper::ask(words, length, query);
    judge(tally, Judge::Document, expected, words, length, query);
}

/// Words of ones, of zeros, of any bits, and with few that are other.
fn words(random: &mut Random, count: usize) -> Vec<u64> {
    let usual = random.pick(&[0, u64::MAX, u64::MAX]);
    let one_in = random.pick(&[1, 2, 8, 512]);
    let mut word = || match random.below(one_in) {
        0 => match random.below(3) {
            0 => random.any(),
            1 => usual ^ 1 << random.below(64),
            _ => usual << random.below(64),
        },
        _ => usual,
    };
    (0..count).map(|_| word()).collect()
}

/// Every position and every stretch of some lengths.
pub fn compare(tally: &mut Tally, random: &mut Random) {
    for length in WHOLE {
        every_stretch(tally, random, length);
    }
}

/// Turned round too, of words of any content.
fn every_stretch(tally: &mut Tally, random: &mut Random, length: u32) {
    let count = paper::needed(length as usize) + random.below(2) as usize;
    let any: Vec<u64> = (0..count).map(|_| random.any()).collect();
    for words in [any, words(random, count)] {
        for begin in 0..=length + 1 {
            any_words(tally, &words, length, Query::Test(begin));
            any_words(tally, &words, length, Query::FirstData(begin));
            for end in 0..=length + 1 {
                any_words(tally, &words, length, Query::Count(begin, end));
            }
        }
    }
}

pub fn judge(
    tally: &mut Tally,
    judge: Judge,
    expected: Answer,
    words: &[u64],
    length: u32,
    query: Query,
) {
    let (call, ours) = match query {
        Query::Test(at) => (Call::MapTest, ours::map_test(words, length, at)),
        Query::Count(begin, end) => {
            let ours = ours::map_count(words, length, begin, end);
            (Call::MapCount, ours)
        }
        Query::FirstData(at) => (Call::MapFirstData, ours::map_first_data(words, length, at)),
    };
    let input = || {
        let first = &words[..words.len().min(16)];
        let count = words.len();
        format!("{query:?}, length {length}, {count} words {first:X?}")
    };
    let number = expected.number;
    tally.judge((call, judge), None, (number, &expected), &ours, input);
}
