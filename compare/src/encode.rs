//! Encode over fields around every limit, in rooms too short, just fitting and too long.

use crate::ours;
use crate::room::{LONGEST, Room};
use crate::share;
use crate::tally::{Call, Judge, Tally};
use compare::answer::Answer;
use compare::original;
use compare::paper;
use compare::random::Random;
use compare::values;

const RANDOM_CALLS: u64 = 2_000_000;

pub fn compare(tally: &mut Tally, random: &mut Random) {
    for form in 0..original::FORMS {
        let kinds = paper::kinds(form);
        let lists: Vec<Vec<i32>> = kinds.iter().map(|kind| values::fields(*kind)).collect();
        let firsts = original::firsts(form);
        values::products(&lists, &mut |fields| {
            for length in (0..=LONGEST).filter(|_| share::is_tried()) {
                one(tally, random.pick(firsts), fields, length, random.any());
            }
        });
    }
    for _ in 0..share::times(RANDOM_CALLS) {
        let first = random.any() as u8;
        let kinds = paper::kinds(original::form(first));
        let fields = random.numbers(kinds, |kind| kind.fields());
        let length = random.below(LONGEST as u64 + 1) as usize;
        one(tally, first, fields, length, random.any());
    }
}

/// What a call answers and leaves in the room.
#[derive(PartialEq, Debug)]
struct Outcome(Answer, Room);

/// One call with a room of some length, whose contents before are chosen by the turn.
pub fn one(tally: &mut Tally, first: u8, fields: [i32; 3], length: usize, turn: u64) {
    let before = Room::filled(turn);
    let mut room = before.clone();
    let answer = ours::encode(first, fields, room.lent(length));
    let ours = Outcome(answer, room);
    let (judge, expected) = expected(original::form(first), fields, length, before);
    tally.judge(
        (Call::Encode, judge),
        Some(first),
        (expected.0.number, &expected),
        &ours,
        || format!("encode first {first:02X} fields {fields:?} room {length}"),
    );
}

/// The original encodes whatever fits; the refusals are document 01's.
fn expected(form: usize, fields: [i32; 3], length: usize, before: Room) -> (Judge, Outcome) {
    let size = original::size(form);
    let no_room = Answer::new(Answer::NO_ROOM, &[size as i64]);
    let refusal = paper::encode_refusal(form, fields).or((length < size).then_some(no_room));
    match refusal {
        Some(answer) => (Judge::Document, Outcome(answer, before)),
        None => {
            let bytes = original::encode(form, fields);
            let answer = Answer::new(Answer::DONE, &[bytes.len() as i64]);
            (Judge::Original, Outcome(answer, before.with(&bytes)))
        }
    }
}
