//! What the plain listing program prints of each image, read off its lines, must be what the report says of it.

use super::stored::Case;
use compare::paper::listing;
use compare::paper::report::{self, Sums};

pub fn case(case: &Case) {
    let text = case.text();
    for lines in report::images(&text) {
        let told = report::told(&lines);
        if told.name.is_none() {
            continue;
        }
        let length = report::input(&lines[1..]).map_or(0, |input| input.image.len());
        let printed = listing::output(&report::listed(&lines[1..]));
        let listed = report::of_listing(&printed, length);
        assert_eq!(told.figures, listed, "{}", case.about);
    }
}

/// No text that a machine holds reaches 22: the plain report is asked from sums that are nearly full, each of the eight in its turn.
pub fn full() {
    let accepted = (
        "N\ta\n0000\n80FF00A041\n",
        "a\t5\t4\t4\t1\t2\t1\n",
        [5, 4, 4, 1, 2, 1, 1, 0],
    );
    let refused = ("N\ta\n0\n", "a\tR\t13\n", [0, 0, 0, 0, 0, 0, 0, 1]);
    for (text, line, grows) in [accepted, refused] {
        for (place, grown) in grows
            .into_iter()
            .enumerate()
            .filter(|(_, grown)| *grown > 0)
        {
            let mut fits = grows;
            fits[place] = u64::MAX;
            let fits: Vec<String> = fits.iter().map(u64::to_string).collect();
            let whole = format!("{line}T\t{}\n", fits.join("\t"));
            assert_eq!(
                report::output_from(begun(place, u64::MAX - grown), text.as_bytes()),
                whole
            );
            let twice = format!("{text}\n{text}\nN\tlater\n");
            let once = format!("{line}R\t22\n");
            assert_eq!(
                report::output_from(begun(place, u64::MAX - grown), twice.as_bytes()),
                once
            );
            let over = report::output_from(begun(place, u64::MAX - grown + 1), text.as_bytes());
            assert_eq!(over, "R\t22\n");
        }
    }
}

/// Sums of zeros but for one.
fn begun(place: usize, sum: u64) -> Sums {
    let mut sums = Sums::default();
    match place {
        6 => sums.accepted = sum,
        7 => sums.refused = sum,
        _ => sums.figures[place] = sum,
    }
    sums
}
