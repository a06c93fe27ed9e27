//! A case and its lines in the stored list.

use super::sum;
use compare::paper::report;

/// Outputs up to this length stand whole in the list; of longer ones some lines.
const WHOLE: usize = 4_096;
const SOME: usize = 12;

/// Bytes that a line of the list cannot hold as they are, and what stands for them.
const MEANT: [(char, char); 7] = [
    ('\t', 'T'),
    ('T', '$'),
    ('\n', '|'),
    ('\0', '!'),
    ('\r', '^'),
    (' ', '_'),
    ('\u{FF}', '*'),
];

/// A text, in parts that are repeated. Each character stands for the byte of its number.
#[derive(Clone)]
pub struct Case {
    pub about: String,
    parts: Vec<(usize, String)>,
    /// The output, where it is written by hand.
    wanted: Option<String>,
}

impl Case {
    pub fn new(about: &str, text: &str) -> Case {
        let lines = text.split_inclusive('\n');
        Case {
            about: about.to_string(),
            parts: lines.map(|line| (1, line.to_string())).collect(),
            wanted: None,
        }
    }

    /// With its output.
    pub fn told(about: &str, text: &str, output: &str) -> Case {
        let mut case = Case::new(about, text);
        case.wanted = Some(output.to_string());
        case
    }

    pub fn and(mut self, times: usize, part: &str) -> Case {
        self.parts.push((times, part.to_string()));
        self
    }

    pub fn text(&self) -> Vec<u8> {
        let byte = |c| u8::try_from(u32::from(c)).expect("a character for each byte");
        let parts = self.parts.iter();
        let parts = parts.map(|(times, part)| part.repeat(*times));
        parts.collect::<String>().chars().map(byte).collect()
    }

    pub fn lines(&self) -> String {
        let output = report::output(&self.text());
        if let Some(wanted) = &self.wanted {
            assert_eq!(*wanted, output, "{}", self.about);
        }
        let mut lines = format!("#{}\n", self.about);
        for (times, part) in &self.parts {
            if *times != 1 {
                lines += &format!("N{times}\n");
            }
            lines += &format!("T{}\n", stored(part));
        }
        let shown = if output.len() <= WHOLE { WHOLE } else { SOME };
        for line in output.split_inclusive('\n').take(shown) {
            lines += &format!("X{}\n", stored(line));
        }
        lines + &format!("S{}\n={}\n", sum::of(output.as_bytes()), output.len())
    }
}

fn stored(part: &str) -> String {
    let stands = |c| {
        if let Some((_, other)) = MEANT.iter().find(|(byte, _)| *byte == c) {
            return *other;
        }
        let taken = MEANT.iter().any(|(_, other)| *other == c);
        assert!(c.is_ascii_graphic() && !taken, "{c:?}");
        c
    };
    part.chars().map(stands).collect()
}
