//! Document 02's engine that sweeps, written out plainly, over the plain start and step.

use super::{Mode, tracer};
use crate::answer::Answer;

pub fn sweep(mode: Mode, image: &[u8], marks: &mut [u8], entries: &[u32], pins: &[u32]) -> Answer {
    let started = tracer::start(image, marks, entries, pins);
    if !started.done() {
        return started;
    }
    let mut sweeps = 1;
    while once(mode, image, marks) > 0 {
        sweeps += 1;
    }
    let steps = tracer::traced(image, marks);
    Answer::new(Answer::DONE, &[sweeps, steps as i64])
}

/// One sweep: how many positions it takes. A step says no to those that are not waiting, and to those cut off.
pub fn once(mode: Mode, image: &[u8], marks: &mut [u8]) -> usize {
    let is_taken = |at: &u32| tracer::step(mode, image, marks, *at).done();
    (0..image.len() as u32).filter(is_taken).count()
}
