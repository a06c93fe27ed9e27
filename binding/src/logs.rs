//! A log from the unit replayed over the marks, whole or in blocks.

use crate::{Answer, Mode, REPLAY_WORDS, Refusal, numbers};

#[derive(Clone, Copy, PartialEq, Eq, Debug)]
pub struct Totals {
    pub lines: u64,
    pub interrupts: u64,
    pub free: u64,
}

impl Totals {
    #[inline]
    fn of(answer: Answer) -> Result<Totals, Refusal> {
        let [lines, interrupts, free, ..] = answer.told()?;
        Ok(Totals {
            lines: lines as u64,
            interrupts: interrupts as u64,
            free: free as u64,
        })
    }
}

/// The whole log. The counts grow by its lines, where it is not refused.
#[inline]
pub fn replay(
    mode: Mode,
    text: &[u8],
    image: &[u8],
    marks: &[u8],
    entries: &[u32],
    counts: &mut [u64],
) -> Result<Totals, Refusal> {
    let answer = numbers::replay(mode as u32, text, image, marks, entries, counts);
    Totals::of(answer)
}

/// What one block of a log hands on to the next. Its numbers may be read by [`REPLAY_LINES`](crate::REPLAY_LINES) and the names beside it.
#[derive(Clone, Copy, PartialEq, Eq, Debug)]
pub struct Record(pub [u64; REPLAY_WORDS]);

impl Record {
    /// From which the first block is taken.
    #[inline]
    pub fn open() -> Record {
        let mut words = [0; REPLAY_WORDS];
        numbers::replay_open(&mut words);
        Record(words)
    }

    /// Takes the next block, cut anywhere: the totals of all blocks up to this one.
    #[inline]
    pub fn block(
        &mut self,
        mode: Mode,
        text: &[u8],
        image: &[u8],
        marks: &[u8],
        entries: &[u32],
        counts: &mut [u64],
    ) -> Result<Totals, Refusal> {
        let record = &mut self.0;
        let answer =
            numbers::replay_block(mode as u32, record, text, image, marks, entries, counts);
        Totals::of(answer)
    }

    /// What the log came to, after its last block.
    #[inline]
    pub fn close(&self) -> Result<Totals, Refusal> {
        Totals::of(numbers::replay_close(&self.0))
    }
}
