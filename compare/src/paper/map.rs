//! Document 02's packed map, W3, written out plainly: a bit at a time, over the byte mask.

use super::flow;
use super::tracer::{self, LONGEST};
use super::views;
use crate::answer::Answer;

/// The bits of a word.
const BITS: usize = pottagewing::WORD_BITS;

/// What is asked of a map: whether a position is code, how many positions of a stretch are, and which one
/// from a position on is the first that is not.
#[derive(Clone, Copy, Debug)]
pub enum Query {
    Test(u32),
    Count(u32, u32),
    FirstData(u32),
}

/// How many words an image of some length needs.
pub fn needed(length: usize) -> usize {
    length.div_ceil(BITS)
}

/// The words of a byte mask: bit 0 of word 0 for position 0, and zero bits past its end.
pub fn packed(mask: &[u8]) -> Vec<u64> {
    let mut words = vec![0; needed(mask.len())];
    for (at, masked) in mask.iter().enumerate() {
        if *masked != 0 {
            set(&mut words, at);
        }
    }
    words
}

fn set(words: &mut [u64], at: usize) {
    words[at / BITS] |= 1 << (at % BITS);
}

fn is_set(words: &[u64], at: usize) -> bool {
    words[at / BITS] & 1 << (at % BITS) != 0
}

pub fn build(image: &[u8], marks: &[u8], words: &mut [u64]) -> Answer {
    views::show(image, marks, words, || {
        packed(&views::mask_of(image, marks))
    })
}

fn outside(position: u32) -> Answer {
    Answer::new(Answer::OUTSIDE, &[i64::from(position)])
}

/// Refusal 11.
fn too_few(words: &[u64], length: usize) -> Option<Answer> {
    let needed = needed(length);
    (words.len() < needed).then(|| Answer::new(Answer::NO_ROOM, &[needed as i64]))
}

/// The bits of the instruction at a traced position are set.
pub fn update(image: &[u8], marks: &[u8], words: &mut [u64], position: u32) -> Answer {
    let refusal = views::refusal(image, marks).or_else(|| too_few(words, image.len()));
    if let Some(refusal) = refusal {
        return refusal;
    }
    let at = position as usize;
    if at >= image.len() || !tracer::is_traced(marks[at]) {
        return outside(position);
    }
    let size = flow::size(image[at]);
    (at..at + size).for_each(|at| set(words, at));
    Answer::new(Answer::DONE, &[size as i64])
}

/// Over words of any content, of an image of some length.
pub fn ask(words: &[u64], length: u32, query: Query) -> Answer {
    let bytes = length as usize;
    if bytes > LONGEST {
        return Answer::new(Answer::LONG_IMAGE, &[i64::from(length)]);
    }
    too_few(words, bytes).unwrap_or_else(|| query.told(bytes, |at| is_set(words, at)))
}

/// Over the byte mask, without words.
pub fn ask_mask(mask: &[u8], query: Query) -> Answer {
    query.told(mask.len(), |at| mask[at] != 0)
}

impl Query {
    /// Refusal 17 carries the position, or where the stretch begins.
    fn told(self, length: usize, is_code: impl Fn(usize) -> bool) -> Answer {
        let told = match self {
            Query::Test(at) if (at as usize) < length => usize::from(is_code(at as usize)),
            Query::Count(begin, end) if begin <= end && end as usize <= length => {
                let stretch = begin as usize..end as usize;
                stretch.filter(|at| is_code(*at)).count()
            }
            Query::FirstData(at) if (at as usize) < length => {
                let mut rest = at as usize..length;
                rest.find(|at| !is_code(*at)).unwrap_or(length)
            }
            Query::Test(at) | Query::Count(at, _) | Query::FirstData(at) => return outside(at),
        };
        Answer::new(Answer::DONE, &[told as i64])
    }
}
