//! What the logs came to, so that it is seen that they meet each rule.

use super::blocks::is_held;
use compare::answer::Answer;
use compare::paper::replay::{By, Told, Traced};
use compare::paper::{Mode, flow};

#[derive(Default)]
pub struct Logs {
    /// Logs, by what is expected of them, where what is lent is not refused.
    accepted: u64,
    refused: u64,
    /// Refused after the first line.
    later: u64,
    /// Of the accepted ones, with interrupts, with free moves, and with both.
    interrupted: u64,
    freed: u64,
    both: u64,
    /// Moves: to a target that is an entry; of a return to an entry; free ones after a Jmpf that is not followed.
    to_entries: u64,
    returns: u64,
    unfollowed: u64,
    /// To a target over the end of memory.
    over: u64,
    lines: u64,
    longest: usize,
    /// Ways of cutting, blocks, blocks after a refusal, and those refused for what is lent, after which others are taken.
    ways: u64,
    blocks: u64,
    after: u64,
    apart: u64,
}

impl Logs {
    pub fn count(&mut self, traced: Traced, told: &Told) {
        let lines = told.taken.len();
        self.lines += lines as u64;
        self.longest = self.longest.max(lines);
        for pair in told.taken.windows(2) {
            self.count_move(traced, pair[0].0, pair[1]);
        }
        if told.refusal.is_some() {
            self.refused += 1;
            self.later += u64::from(lines > 0);
            return;
        }
        let (interrupted, freed) = (told.moves(By::Interrupt) > 0, told.moves(By::Free) > 0);
        self.accepted += 1;
        self.interrupted += u64::from(interrupted);
        self.freed += u64::from(freed);
        self.both += u64::from(interrupted && freed);
    }

    fn count_move(&mut self, traced: Traced, last: usize, (at, by): (usize, By)) {
        let is_free = traced.is_free_after(last);
        match by {
            By::Target => {
                let unwrapped = flow::targets_at(Mode::Unwrapped, traced.image, last);
                self.over += u64::from(!unwrapped.contains(&(at as i64)));
                self.to_entries += u64::from(traced.entries.contains(&(at as u32)));
            }
            By::Interrupt => self.returns += u64::from(is_free),
            By::Free => self.unfollowed += u64::from(traced.image[last] == 0x21),
            By::Beginning => (),
        }
    }

    /// The answers of the blocks of one way; whether what is lent with most of them is not refused.
    pub fn count_blocks(&mut self, answers: &[Answer], is_lent: bool) {
        self.ways += 1;
        self.blocks += answers.len() as u64;
        let held = answers.iter().filter(|answer| is_held(answer)).count();
        self.after += held.saturating_sub(1) as u64;
        let is_apart = |pair: &&[Answer]| !pair[0].done() && !is_held(&pair[0]) && pair[1].done();
        if is_lent {
            self.apart += answers.windows(2).filter(is_apart).count() as u64;
        }
    }

    pub fn report(&self) {
        let (accepted, refused, later) = (self.accepted, self.refused, self.later);
        let (interrupted, freed, both) = (self.interrupted, self.freed, self.both);
        println!(
            "logs: accepted {accepted}, with interrupts {interrupted}, with free moves {freed}, with both {both}; \
             refused for a line {refused}, for one after the first {later}"
        );
        let (to_entries, returns, unfollowed) = (self.to_entries, self.returns, self.unfollowed);
        let (lines, longest, over) = (self.lines, self.longest, self.over);
        println!("logs: lines taken {lines}, the most in one {longest}");
        println!(
            "logs: moves to targets over the end of memory {over}, to targets that are entries {to_entries}, \
             of returns to entries {returns}, free after a Jmpf that is not followed {unfollowed}"
        );
        let (ways, blocks, after, apart) = (self.ways, self.blocks, self.after, self.apart);
        println!(
            "logs in blocks: ways of cutting {ways}, blocks {blocks}, after a refusal {after}, \
             refused for what is lent with the next one taken {apart}"
        );
    }
}
