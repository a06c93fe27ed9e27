//! A walk through a traced image: targets, interrupts and returns by chance; its text; and counts to add it to.

use crate::lent::Lent;
use compare::paper::replay::Traced;
use compare::random::Random;

/// One move in so many is an interrupt, where there is an entry to come to.
const INTERRUPTS: u64 = 12;
/// A line tells one of so many positions.
const MEMORY: usize = pottagewing::IMAGE_LIMIT;
/// One return in so many goes to an entry.
const TO_ENTRY: u64 = 4;

/// Up to so many positions; fewer where nothing may follow.
pub fn positions(random: &mut Random, traced: Traced, lines: usize) -> Vec<usize> {
    let memory = 0..traced.image.len().min(MEMORY);
    let everywhere: Vec<usize> = memory.filter(|at| traced.is_traced(*at)).collect();
    let entries = traced.entries.iter().map(|entry| *entry as usize);
    let entries: Vec<usize> = entries.filter(|at| traced.is_traced(*at)).collect();
    let mut walk = vec![];
    let mut next = match entries.is_empty() || random.below(4) == 0 {
        true => one(random, &everywhere),
        false => one(random, &entries),
    };
    while let Some(at) = next.filter(|_| walk.len() < lines) {
        walk.push(at);
        next = after(random, traced, at, (&entries, &everywhere));
    }
    walk
}

fn one(random: &mut Random, list: &[usize]) -> Option<usize> {
    (!list.is_empty()).then(|| random.pick(list))
}

/// A traced target; an entry now and then, or where there is no other way; anything after a return.
fn after(
    random: &mut Random,
    traced: Traced,
    at: usize,
    (entries, everywhere): (&[usize], &[usize]),
) -> Option<usize> {
    let interrupt = one(random, entries);
    if interrupt.is_some() && random.below(INTERRUPTS) == 0 {
        return interrupt;
    }
    let targets = traced.targets(at).into_iter();
    let targets = targets.filter_map(|target| usize::try_from(target).ok());
    let targets: Vec<usize> = targets.filter(|at| traced.is_traced(*at)).collect();
    let target = one(random, &targets);
    if target.is_some() {
        return target;
    }
    let to_entry = random.below(TO_ENTRY) == 0;
    match traced.is_free_after(at) && !(to_entry && interrupt.is_some()) {
        true => one(random, everywhere),
        false => interrupt,
    }
}

pub fn line(at: usize) -> String {
    format!("P\t{at:04X}\n")
}

pub fn text(positions: &[usize]) -> Vec<u8> {
    let lines: String = positions.iter().map(|at| line(*at)).collect();
    lines.into_bytes()
}

/// Counts of any size for an image, mostly enough of them, and more as often; at times some of a walk near the top.
pub fn counts(random: &mut Random, length: usize, walk: &[usize]) -> Lent<u64> {
    let lent = match random.below(64) {
        0 => length.saturating_sub(1 + random.below(3) as usize),
        1..32 => length,
        _ => length + random.below(5) as usize,
    };
    let small = random.below(2) == 0;
    let value = |mixed: u64| if small { mixed % 16 } else { mixed / 2 };
    let mut counts = Lent::filled(lent, random, value);
    if random.below(6) == 0 {
        for _ in 0..1 + random.below(2) {
            let at = one(random, walk).filter(|at| *at < lent);
            at.into_iter()
                .for_each(|at| counts.lend()[at] = u64::MAX - random.below(4));
        }
    }
    counts
}
