//! What the listing program prints for a text, by the archive's call and, for some of the texts, by the built
//! program. The original has another form of input and of output: the plain program by document 01 judges.

use crate::lent::Lent;
use crate::ours;
use crate::program::{Printed, Program};
use crate::share;
use crate::tally::{Call, Judge, Tally};
use crate::texts;
use crate::views::{self, Outcome};
use compare::answer::Answer;
use compare::paper::{input, listing};
use compare::random::Random;

/// Makes a text.
type Make = fn(&mut Random) -> Vec<u8>;
/// How texts are made, how many, and of how many one goes through the program too.
const TEXTS: [(Make, u64, u64); 4] = [
    (texts::good, 120_000, 64),
    (texts::spoiled, 110_000, 64),
    (texts::loose, 20_000, 64),
    (texts::at_limits, 600, 4),
];
/// Numbers of their own for what is taken apart, so that the other comparisons are the same with it and without.
const OWN: u64 = 0x5EED_1490;
/// So much of a text is shown.
const SHOWN: usize = 240;

pub fn compare(tally: &mut Tally, random: &mut Random) {
    let program = Program::list();
    for (make, count, of) in TEXTS {
        for turn in 0..share::times(count) {
            let text = make(random);
            let printed = listing::output(&text);
            tally.texts.count(&text, &printed);
            one(tally, random, &text, &printed);
            parts(tally, &Random(random.0 ^ OWN), &text);
            if turn % of == 0
                && let Some(program) = &program
            {
                through(program, tally, &text, &printed);
            }
        }
    }
}

/// By the archive.
fn one(tally: &mut Tally, random: &mut Random, text: &[u8], printed: &str) {
    let room = views::room(random, printed.len());
    let room = Lent::filled(room, random, |mixed| mixed as u8);
    let expected = match room.part().len() < printed.len() {
        true => {
            let needed = [printed.len() as i64];
            Outcome(Answer::new(Answer::NO_ROOM, &needed), room.clone())
        }
        false => views::shows(&room, printed.as_bytes()),
    };
    let ours = views::outcome(&room, |room| ours::list_text(text, room));
    let what = (Call::ListText, Judge::Document);
    let number = expected.0.number;
    tally.judge(what, None, (number, &expected), &ours, || shown(text));
}

/// Taken apart: entries and image, each in a room of its own.
fn parts(tally: &mut Tally, random: &Random, text: &[u8]) {
    let mut random = Random(random.0);
    let parsed = input::parse(text);
    let needed = parsed
        .as_ref()
        .map_or([1, 8], |input| [input.entries.len(), input.image.len()]);
    let [entries, image] = needed.map(|needed| views::room(&mut random, needed));
    let short = [entries < needed[0], image < needed[1]];
    let entries = Lent::filled(entries, &mut random, |mixed| mixed as u32);
    let image = Lent::filled(image, &mut random, |mixed| mixed as u8);
    let counts = needed.map(|count| count as i64);
    let stayed = |number, values: &[i64]| {
        let answer = Answer::new(number, values);
        (answer, entries.clone(), image.clone())
    };
    let expected = match &parsed {
        Err(line) => stayed(Answer::MALFORMED_INPUT, &[*line as i64]),
        Ok(_) if short.contains(&true) => stayed(Answer::NO_ROOM, &counts),
        Ok(input) => (
            Answer::new(Answer::DONE, &counts),
            entries.clone().with(&input.entries),
            image.clone().with(&input.image),
        ),
    };
    let (mut entries, mut image) = (entries.clone(), image.clone());
    let answer = ours::parse(text, entries.lend(), image.lend());
    let ours = (answer, entries, image);
    let number = expected.0.number;
    let what = (Call::Parse, Judge::Document);
    tally.judge(what, None, (number, &expected), &ours, || shown(text));
}

/// By the program.
fn through(program: &Program, tally: &mut Tally, text: &[u8], printed: &str) {
    let expected = Printed::well(printed);
    let ours = program.print(text);
    let what = (Call::Program, Judge::Document);
    tally.judge(what, None, (0, &expected), &ours, || shown(text));
}

fn shown(text: &[u8]) -> String {
    let (count, beginning) = (text.len(), &text[..text.len().min(SHOWN)]);
    let beginning = String::from_utf8_lossy(beginning);
    format!("list text of {count} bytes {beginning:?}")
}
