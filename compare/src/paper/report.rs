//! Document 02's term report, written out a second time and plainly: the whole text at once, image by image.

use super::input::{self, Input};
use super::{Mode, flow, tracer, views};
use crate::answer::Answer;
use std::fmt::Write;

/// The longest name.
pub use pottagewing::LONGEST_NAME;
/// Length, steps, code bytes, data bytes, bytes under more than one instruction, target marks.
pub const FIGURES: usize = 6;

/// What is printed of an image: its name, and the figures or the number of the refusal.
pub struct Told {
    /// Nothing where the `N` line is bad.
    pub name: Option<String>,
    pub figures: Result<[u64; FIGURES], u32>,
}

/// What is added up over a term.
#[derive(Clone, Copy, Default)]
pub struct Sums {
    pub figures: [u64; FIGURES],
    pub accepted: u64,
    pub refused: u64,
}

/// The whole output of the report.
pub fn output(text: &[u8]) -> String {
    output_from(Sums::default(), text)
}

/// The output of a report whose sums begin here.
pub fn output_from(mut sums: Sums, text: &[u8]) -> String {
    let mut printed = String::new();
    for lines in images(text) {
        let told = told(&lines);
        let Some(grown) = sums.and(&told) else {
            return printed + "R\t22\n";
        };
        sums = grown;
        printed += &told.line();
    }
    printed + &sums.line()
}

/// The lines of each image: what empty lines part.
pub fn images(text: &[u8]) -> Vec<Vec<&[u8]>> {
    let lines = input::lines(text);
    let parts = lines.split(|line| line.is_empty());
    parts
        .filter(|part| !part.is_empty())
        .map(<[_]>::to_vec)
        .collect()
}

pub fn told(lines: &[&[u8]]) -> Told {
    let name = name(lines[0]);
    let figures = match (&name, input(&lines[1..])) {
        (Some(_), Ok(input)) => figures(&input),
        _ => Err(Answer::MALFORMED_INPUT),
    };
    Told { name, figures }
}

/// The name of an `N` line.
pub fn name(line: &[u8]) -> Option<String> {
    let name = line.strip_prefix(b"N\t")?;
    let good = (1..=LONGEST_NAME).contains(&name.len());
    let good = good && name.iter().all(u8::is_ascii_alphanumeric);
    good.then(|| String::from_utf8_lossy(name).into_owned())
}

/// What the lines after an `N` line say, or which of them is bad, counted from 1.
pub fn input(lines: &[&[u8]]) -> Result<Input, usize> {
    input::parse(&listed(lines))
}

/// The same lines as the listing program has them: no entries are an empty line there.
pub fn listed(lines: &[&[u8]]) -> Vec<u8> {
    let mut lines = lines.to_vec();
    if lines.first() == Some(&&b"-"[..]) {
        lines[0] = b"";
    }
    lines.join(&b'\n')
}

fn figures(input: &Input) -> Result<[u64; FIGURES], u32> {
    let (image, mode) = (&input.image, Mode::Unwrapped);
    let length = image.len();
    let (mut marks, mut order) = (vec![0; length], vec![0; length]);
    let limit = length as u32;
    let run = tracer::run(
        mode,
        image,
        &mut marks,
        &mut order,
        &input.entries,
        &[],
        limit,
    );
    if !run.done() {
        return Err(run.number);
    }
    let steps = run.values[1] as usize;
    let mask = views::mask_of(image, &marks);
    let mut named = vec![0; length];
    assert!(views::target_marks(mode, image, &marks, &mut named).done());
    let ones = |bytes: &[u8]| bytes.iter().filter(|byte| **byte == 1).count();
    let code = ones(&mask);
    let data = mask.iter().filter(|byte| **byte == 0).count();
    let shared = shared(image, &order[..steps]);
    Ok([length, steps, code, data, shared, ones(&named)].map(|count| count as u64))
}

/// How many bytes are under more than one of the instructions at these positions.
fn shared(image: &[u8], taken: &[u32]) -> usize {
    let mut over = vec![0; image.len()];
    for at in taken.iter().map(|at| *at as usize) {
        for count in &mut over[at..at + flow::size(image[at])] {
            *count += 1;
        }
    }
    over.into_iter().filter(|count: &u32| *count > 1).count()
}

impl Told {
    pub fn line(&self) -> String {
        let name = self.name.as_deref().unwrap_or("-");
        match &self.figures {
            Ok(figures) => tabbed(name, figures),
            Err(number) => format!("{name}\tR\t{number}\n"),
        }
    }
}

impl Sums {
    /// Nothing where a sum would not fit.
    pub fn and(&self, told: &Told) -> Option<Sums> {
        let mut sums = *self;
        match &told.figures {
            Err(_) => sums.refused = sums.refused.checked_add(1)?,
            Ok(figures) => {
                sums.accepted = sums.accepted.checked_add(1)?;
                for (sum, figure) in sums.figures.iter_mut().zip(figures) {
                    *sum = sum.checked_add(*figure)?;
                }
            }
        }
        Some(sums)
    }

    pub fn line(&self) -> String {
        let counts = [self.accepted, self.refused];
        tabbed("T", &[&self.figures[..], &counts].concat())
    }
}

fn tabbed(first: &str, numbers: &[u64]) -> String {
    let mut line = first.to_string();
    for number in numbers {
        write!(line, "\t{number}").expect("a string takes any text");
    }
    line + "\n"
}

/// What a listing of an image of so many bytes says of it: `I` lines, their bytes, `L` lines; or the number of an `R` line.
pub fn of_listing(printed: &str, length: usize) -> Result<[u64; FIGURES], u32> {
    let mut over = vec![0; length];
    let (mut steps, mut named) = (0, 0);
    for line in printed.lines() {
        let fields: Vec<&str> = line.split('\t').collect();
        match fields[0] {
            "R" => return Err(fields[1].parse().expect("the number of a refusal")),
            "L" => named += 1,
            "I" => {
                let at = usize::from_str_radix(fields[1], 16).expect("a position");
                let bytes = &mut over[at..at + fields[2].len() / 2];
                bytes.iter_mut().for_each(|count: &mut u32| *count += 1);
                steps += 1;
            }
            _ => (),
        }
    }
    let under = |least: u32| over.iter().filter(|count| **count >= least).count();
    let (code, shared) = (under(1), under(2));
    Ok([length, steps, code, length - code, shared, named].map(|count| count as u64))
}
