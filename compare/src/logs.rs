//! Logs from the unit, replayed whole and in blocks. The original has no such call: a plain replay by document 02 judges.
//! The logs are walked by chance through traced images, and spoiled.

mod blocks;
mod changing;
mod every;
mod scene;
mod spoil;
mod sums;
mod walk;

use crate::lent::Lent;
use crate::ours;
use crate::rings;
use crate::share;
use crate::steps::shown;
use crate::tally::{Call, Judge, Tally};
use crate::views::{self, Outcome};
use compare::answer::Answer;
use compare::paper::replay::{self as paper, Told, Traced};
use compare::paper::{Mode, flow, tracer};
use compare::random::Random;
use scene::Scene;
pub use sums::Logs;

/// Makes a traced image.
type Make = fn(&mut Random) -> Scene;
/// How many traced images there are of a kind, how many logs over each, and how many lines each of these has at most.
const WALKED: [(Make, u64, u64, u64); 6] = [
    (scene::short, 30_000, 10, 24),
    (scene::middle, 8_000, 12, 80),
    (scene::game, 300, 40, 600),
    (scene::game, 20, 10, 6_000),
    (scene::ring, 300, 12, 200),
    (scene::too_long, 20, 3, 4),
];
/// Of one traced image so many moves over the end of memory at most.
const LEAVING: usize = 6;
/// So much of a text is shown.
const SHOWN: usize = 240;

pub fn compare(tally: &mut Tally, random: &mut Random) {
    every::compare(tally, random);
    for (make, scenes, logs, most) in WALKED {
        for _ in 0..share::times(scenes) {
            let scene = make(random);
            (0..logs).for_each(|_| walked(tally, random, &scene, most));
            leaving(tally, random, &scene);
        }
    }
    changing::compare(tally, random);
}

/// A walk over a scene, half of the time spoiled.
fn walked(tally: &mut Tally, random: &mut Random, scene: &Scene, most: u64) {
    let entries = scene.entries(random);
    let marks = scene.marks(random);
    let traced = Traced {
        mode: scene.mode,
        image: &scene.image,
        marks: &marks,
        entries: &entries,
    };
    let lines = random.below(most + 1) as usize;
    let positions = walk::positions(random, scene.traced(&entries), lines);
    let mut text = walk::text(&positions);
    if random.below(2) == 0 {
        spoil::text(random, scene, &mut text);
    }
    let counts = walk::counts(random, scene.image.len(), &positions);
    let given = Given {
        traced,
        text: &text,
        counts,
    };
    given.compare(tally, random);
}

/// Two lines, from a traced position with a target that leaves memory to where that leads in wrapping mode.
fn leaving(tally: &mut Tally, random: &mut Random, scene: &Scene) {
    let traced = scene.traced(&[]);
    let memory = scene.image.len().min(tracer::LONGEST);
    let positions = (0..memory).filter(|at| traced.is_traced(*at));
    let positions = rings::leaving(&scene.image, positions.map(|at| at as u32));
    for _ in 0..LEAVING.min(positions.len()) {
        let from = random.pick(&positions) as usize;
        let targets = flow::targets_at(Mode::Wrapping, &scene.image, from);
        let to = random.pick(&targets) as usize;
        let entries = scene.entries(random);
        let given = Given {
            traced: scene.traced(&entries),
            text: &walk::text(&[from, to]),
            counts: walk::counts(random, scene.image.len(), &[from, to]),
        };
        given.compare(tally, random);
    }
}

/// A log and what is lent with it.
struct Given<'a> {
    traced: Traced<'a>,
    text: &'a [u8],
    counts: Lent<u64>,
}

impl Given<'_> {
    /// Whole, and in blocks.
    fn compare(&self, tally: &mut Tally, random: &mut Random) {
        let told = paper::told(self.traced, self.text, self.counts.part());
        let expected = self.expected(&told);
        let ours = views::outcome(&self.counts, |counts| {
            ours::replay(self.traced, self.text, counts)
        });
        let number = expected.0.number;
        let what = (Call::Replay, self.judge());
        tally.judge(what, None, (number, &expected), &ours, || self.shown());
        if let Ok(told) = &told {
            tally.logs.count(self.traced, told);
        }
        blocks::compare(tally, random, self, told.as_ref().ok());
    }

    /// A refused replay leaves the counts.
    fn expected(&self, told: &Result<Told, Answer>) -> Outcome<u64> {
        let mut counts = self.counts.clone();
        match told {
            Err(refusal) => Outcome(*refusal, counts),
            Ok(told) => {
                if told.refusal.is_none() {
                    told.add_to(counts.lend());
                }
                Outcome(told.answer(), counts)
            }
        }
    }

    fn judge(&self) -> Judge {
        match self.traced.mode {
            Mode::Unwrapped => Judge::Document,
            Mode::Wrapping => Judge::Wrapping,
        }
    }

    fn shown(&self) -> String {
        let Traced {
            mode,
            image,
            marks,
            entries,
        } = self.traced;
        let (image, count) = (shown(image), self.text.len());
        let (marks, entries) = (&marks[..marks.len().min(48)], entries);
        let text = String::from_utf8_lossy(&self.text[..count.min(SHOWN)]);
        let counts = &self.counts;
        format!(
            "{mode:?} replay of {count} bytes {text:?} over {image} marks {marks:?} entries {entries:?} counts {counts:?}"
        )
    }
}
