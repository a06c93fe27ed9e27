//! The engine that sweeps. It keeps up between which positions something waits, and leaves out what lies outside.

use super::forms::{FORMS, Flow};
use super::trace::{TRACED, UNFOLLOWED, UNTOUCHED, WAITING, is_exempt, named, note};

#[derive(Default)]
pub struct Sweeper {
    pub marks: Vec<u8>,
    pub steps: usize,
    /// What waits for the next sweep lies from the first of these on and before the second.
    from: usize,
    to: usize,
}

impl Sweeper {
    /// How many sweeps there were, the last one counted.
    pub fn sweep(&mut self, image: &[u8], entries: &[u32]) -> usize {
        self.marks.clear();
        self.marks.resize(image.len(), UNTOUCHED);
        self.steps = 0;
        (self.from, self.to) = (image.len(), 0);
        for entry in entries {
            if note(&mut self.marks, i64::from(*entry)) {
                self.wait(*entry as usize);
            }
        }
        let mut sweeps = 0;
        loop {
            let before = self.steps;
            self.once(image);
            sweeps += 1;
            if self.steps == before {
                return sweeps;
            }
        }
    }

    fn once(&mut self, image: &[u8]) {
        let (mut at, mut end) = (self.from, self.to);
        (self.from, self.to) = (image.len(), 0);
        while at < end {
            let Some(ahead) = self.marks[at..end].iter().position(|mark| *mark == WAITING) else {
                return;
            };
            at += ahead;
            end = end.max(self.take_up(image, at));
            at += 1;
        }
    }

    /// Takes a position up, unless it is cut off. The sweep goes on up to what is answered, to meet what waits ahead.
    fn take_up(&mut self, image: &[u8], at: usize) -> usize {
        let form = FORMS[image[at] as usize];
        let next = at + form.size as usize;
        if next > image.len() {
            return 0;
        }
        self.steps += 1;
        if is_exempt(image, &self.marks, at) {
            self.marks[at] = UNFOLLOWED;
            return 0;
        }
        self.marks[at] = TRACED;
        let mut end = 0;
        let target = named(image, at, form);
        let onward = matches!(form.flow, Flow::Next | Flow::Branch).then_some(next as i64);
        for position in [target, onward].into_iter().flatten() {
            if note(&mut self.marks, position) {
                let position = position as usize;
                if position > at {
                    end = end.max(position + 1);
                } else {
                    self.wait(position);
                }
            }
        }
        end
    }

    /// Lets the next sweep meet a position.
    fn wait(&mut self, position: usize) {
        self.from = self.from.min(position);
        self.to = self.to.max(position + 1);
    }
}
