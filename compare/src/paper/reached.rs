//! Document 02's W13: the positions that are reached from entries by the bytes alone, whatever the order of taking up. What
//! follows a Jmpf with B8 0D in the two bytes before it depends on the order: here it is never reached, or always.

use super::{Mode, flow, tracer};

/// What is done at a Jmpf with B8 0D in the two bytes before it.
#[derive(Clone, Copy, PartialEq)]
pub enum Follow {
    None,
    All,
}

/// Of each position of the image, whether it is reached. A pinned one is not, and nothing is through one that is cut off.
pub fn reached(
    mode: Mode,
    image: &[u8],
    entries: &[u32],
    pins: &[u32],
    follow: Follow,
) -> Vec<bool> {
    let mut reached = vec![false; image.len()];
    let mut pinned = vec![false; image.len()];
    let inside = |pin: &&u32| (**pin as usize) < image.len();
    let pins = pins.iter().filter(inside);
    pins.for_each(|pin| pinned[*pin as usize] = true);
    let mut open: Vec<i64> = entries.iter().map(|entry| i64::from(*entry)).collect();
    while let Some(position) = open.pop() {
        let at = usize::try_from(position).unwrap_or(usize::MAX);
        if at >= image.len() || pinned[at] || reached[at] {
            continue;
        }
        reached[at] = true;
        let stays = follow == Follow::None && tracer::after_flash(image, at);
        if fits(image, at) && !stays {
            open.extend(flow::targets_at(mode, image, at));
        }
    }
    reached
}

/// Whether the instruction at a position of the image is whole.
pub fn fits(image: &[u8], at: usize) -> bool {
    at + flow::size(image[at]) <= image.len()
}

/// Of each byte of the image, whether an instruction covers it that is whole and stands at one of these positions.
pub fn covered(image: &[u8], positions: &[bool]) -> Vec<bool> {
    let mut covered = vec![false; image.len()];
    for at in (0..image.len()).filter(|at| positions[*at] && fits(image, *at)) {
        covered[at..at + flow::size(image[at])].fill(true);
    }
    covered
}
