//! Views over marks of any content. Each answers how much was written at the beginning of the room.

use crate::{Mode, Refusal, numbers};

/// 1 on each byte of a traced instruction, 0 on all others.
#[inline]
pub fn mask(image: &[u8], marks: &[u8], room: &mut [u8]) -> Result<usize, Refusal> {
    numbers::mask(image, marks, room).count()
}

/// 1 at each position that a traced jump, branch or call names, 0 at all others.
#[inline]
pub fn target_marks(
    mode: Mode,
    image: &[u8],
    marks: &[u8],
    room: &mut [u8],
) -> Result<usize, Refusal> {
    numbers::target_marks(mode as u32, image, marks, room).count()
}

/// The traced positions whose instructions overlap that of a traced one, 3 at most.
#[inline]
pub fn overlaps(
    image: &[u8],
    marks: &[u8],
    position: u32,
    room: &mut [u32],
) -> Result<usize, Refusal> {
    numbers::overlaps(image, marks, position, room).count()
}

/// The traced positions from which control arrives at one.
#[inline]
pub fn arrivals(
    mode: Mode,
    image: &[u8],
    marks: &[u8],
    position: u32,
    room: &mut [u32],
) -> Result<usize, Refusal> {
    numbers::arrivals(mode as u32, image, marks, position, room).count()
}

/// The length of the data run at a position, which is refused for nothing.
#[inline]
pub fn data_run(image: &[u8], mask: &[u8], position: u32) -> usize {
    numbers::data_run(image, mask, position).values[0] as usize
}
