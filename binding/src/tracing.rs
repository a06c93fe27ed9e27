//! Tracing over an image and its marks, one byte for each position.

use crate::{Mark, Mode, Refusal, numbers};

#[derive(Clone, Copy, PartialEq, Eq, Debug)]
pub struct Stepped {
    /// The position's new mark.
    pub mark: Mark,
    /// How many positions became waiting.
    pub waiting: usize,
}

#[derive(Clone, Copy, PartialEq, Eq, Debug)]
#[repr(u32)]
pub enum Ended {
    /// By its limit.
    Stopped = 0,
    Finished = 1,
}

#[derive(Clone, Copy, PartialEq, Eq, Debug)]
pub struct Ran {
    pub ended: Ended,
    pub steps: usize,
    /// The positions in the order list.
    pub noted: usize,
}

#[derive(Clone, Copy, PartialEq, Eq, Debug)]
pub struct Swept {
    /// The last one, which takes up none, counted.
    pub sweeps: usize,
    pub steps: usize,
}

/// How many positions are waiting.
#[inline]
pub fn start(
    image: &[u8],
    marks: &mut [u8],
    entries: &[u32],
    pins: &[u32],
) -> Result<usize, Refusal> {
    numbers::start(image, marks, entries, pins).count()
}

#[inline]
pub fn step(mode: Mode, image: &[u8], marks: &mut [u8], position: u32) -> Result<Stepped, Refusal> {
    let [mark, waiting, ..] = numbers::step(mode as u32, image, marks, position).told()?;
    Ok(Stepped {
        mark: Mark::of(mark as u8).expect("a mark"),
        waiting: waiting as usize,
    })
}

/// No position is taken up twice: a limit of the image's length lets every run finish.
#[inline]
pub fn run(
    mode: Mode,
    image: &[u8],
    marks: &mut [u8],
    order: &mut [u32],
    entries: &[u32],
    pins: &[u32],
    limit: u32,
) -> Result<Ran, Refusal> {
    let answer = numbers::run(mode as u32, image, marks, order, entries, pins, limit);
    let [finished, steps, noted, ..] = answer.told()?;
    Ok(Ran {
        ended: match finished {
            0 => Ended::Stopped,
            _ => Ended::Finished,
        },
        steps: steps as usize,
        noted: noted as usize,
    })
}

#[inline]
pub fn sweep(
    mode: Mode,
    image: &[u8],
    marks: &mut [u8],
    entries: &[u32],
    pins: &[u32],
) -> Result<Swept, Refusal> {
    let answer = numbers::sweep(mode as u32, image, marks, entries, pins);
    let [sweeps, steps, ..] = answer.told()?;
    Ok(Swept {
        sweeps: sweeps as usize,
        steps: steps as usize,
    })
}
