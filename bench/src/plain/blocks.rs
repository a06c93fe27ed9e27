//! A log that arrives in blocks. The marks are lent again with each, so each looks at them for damage.

use super::damage::damaged;
use super::replay::{LINE, Refused, Replayer, State, Totals};

/// What is kept from one block to the next.
#[derive(Default)]
pub struct Blocks {
    replayer: Replayer,
    state: State,
    /// A line that has only begun.
    begun: Vec<u8>,
    refused: Option<Refused>,
}

impl Blocks {
    pub fn open(&mut self, entries: &[u32]) {
        self.replayer.enter(entries);
        self.state = State::default();
        self.begun.clear();
        self.refused = None;
    }

    /// The totals so far.
    pub fn block(
        &mut self,
        block: &[u8],
        image: &[u8],
        marks: &[u8],
        counts: &mut [u64],
    ) -> Result<Totals, Refused> {
        if let Some(refused) = self.refused {
            return Err(refused);
        }
        if let Some(at) = damaged(image, marks) {
            return Err(Refused::Damaged(at));
        }
        let taken = self.take(block, image, marks, counts);
        self.refused = taken.err();
        taken.map(|()| self.state.totals)
    }

    /// What the log came to.
    pub fn close(&self) -> Result<Totals, Refused> {
        match self.refused {
            Some(refused) => Err(refused),
            None if !self.begun.is_empty() => Err(Refused::Malformed(self.state.totals.lines + 1)),
            None => Ok(self.state.totals),
        }
    }

    fn take(
        &mut self,
        mut block: &[u8],
        image: &[u8],
        marks: &[u8],
        counts: &mut [u64],
    ) -> Result<(), Refused> {
        let mut lines = |lines: &[u8]| {
            self.replayer
                .lines(lines, image, marks, counts, &mut self.state)
        };
        if !self.begun.is_empty() {
            let (end, rest) = block.split_at(line_end(block, LINE - self.begun.len()));
            self.begun.extend(end);
            block = rest;
            if self.begun.len() == LINE || self.begun.ends_with(b"\n") {
                lines(&self.begun)?;
                self.begun.clear();
            }
        }
        let (whole, rest) = block.split_at(block.len() / LINE * LINE);
        lines(whole)?;
        let (end, _) = rest.split_at(line_end(rest, LINE));
        match end.ends_with(b"\n") {
            true => lines(end),
            false => {
                self.begun.extend(end);
                Ok(())
            }
        }
    }
}

/// How many of these bytes belong to a line that lacks so many at most.
fn line_end(bytes: &[u8], most: usize) -> usize {
    let bytes = &bytes[..most.min(bytes.len())];
    let end = bytes.iter().position(|byte| *byte == b'\n');
    end.map_or(bytes.len(), |end| end + 1)
}
