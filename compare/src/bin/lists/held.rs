//! What the original has of a listing, it must have as the plain program by document 01 has it: where the
//! trace is cut off, the traced positions, the code bytes, labels, overlaps, data runs and fields.

use super::stored::{Asked, Case};
use compare::original::{self, traced, viewed};
use compare::paper::input::{self, Input};
use compare::paper::{Mode, dis, fields, flow, listing, tracer, views};
use waterbear::disasm::probe::Graph;

/// Visits of the original for each byte of an image, and more.
const VISITS: (u64, u64) = (16, 1_000);

pub fn case(case: &Case) {
    let Some(input) = input(case) else {
        return;
    };
    let visits = VISITS.0 * input.image.len() as u64 + VISITS.1;
    match traced::trace(&input.entries, &input.image, visits) {
        None => eprintln!("given up in the original: {}", case.about),
        Some(told) => match (told.graph, told.cut_off) {
            (Some(graph), _) => whole(&input, &graph),
            (None, end) => cut_off(&input, end.expect("it ended somewhere")),
        },
    }
}

/// A text or words that are malformed, and marks that no run left, the original cannot be asked about; nor does it know pins,
/// wrapping mode and a limit on an image.
fn input(case: &Case) -> Option<Input> {
    match case.asked {
        Asked::Output => input::parse(&case.text()).ok(),
        Asked::Dis => {
            let (asked, image) = (dis::asked(&case.words()).ok()?, case.image());
            let known = asked.pins.is_empty() && asked.mode == Mode::Unwrapped;
            let entries = asked.all_entries().to_vec();
            (known && image.len() <= tracer::LONGEST).then_some(Input { entries, image })
        }
        Asked::Listing(_) | Asked::Unchosen => None,
    }
}

fn cut_off(input: &Input, (position, first, missing): (u32, u8, u8)) {
    let refusal = listing::marks(input).expect_err("it is cut off");
    let told = [i64::from(position), i64::from(first), i64::from(missing)];
    assert_eq!(refusal.values[..3], told);
}

fn whole(input: &Input, graph: &Graph) {
    let image = &input.image;
    let marks = listing::marks(input).expect("it is not cut off");
    let (mut mask, mut labels) = (vec![0; image.len()], vec![0; image.len()]);
    assert!(views::mask(image, &marks, &mut mask).done());
    assert!(views::target_marks(Mode::Unwrapped, image, &marks, &mut labels).done());
    assert_eq!(mask, viewed::mask(graph, image));
    assert_eq!(labels, viewed::target_marks(graph, image));
    let (traced, others): (Vec<usize>, Vec<usize>) =
        (0..image.len()).partition(|at| marks[*at] >= 2);
    assert_eq!(traced, graph.positions());
    for at in traced {
        let (overlaps, bytes) = (
            views::overlaps_at(image, &marks, at),
            &image[at..at + flow::size(image[at])],
        );
        assert_eq!(overlaps, viewed::overlaps(graph, at as u32));
        let (fields, decoded) = (fields::fields(bytes), original::decode(bytes).values);
        assert_eq!(fields, decoded[2..2 + fields.len()]);
    }
    for at in others.into_iter().map(|at| at as u32) {
        let run = viewed::data_run(image, &mask, at).expect("it is inside");
        assert_eq!(views::data_run(image, &mask, at), run);
    }
}
