//! A case and its lines in the stored list.

use super::sum;
use compare::paper::Mode;
use compare::paper::dis::{self, Dis};
use compare::paper::input;
use compare::paper::listing::{self, Arrivals};

/// Outputs up to this length stand whole in the list; of longer ones some lines.
const WHOLE: usize = 4_096;
const SOME: usize = 12;

/// Bytes that a line of the list cannot hold as they are, and what stands for them.
const MEANT: [(char, char); 6] = [
    ('\t', 'T'),
    ('\n', '|'),
    ('\0', '!'),
    ('\r', '^'),
    (' ', '_'),
    ('\u{FF}', '*'),
];

/// What is asked for.
#[derive(Clone, Copy, PartialEq)]
pub enum Asked {
    /// The listing program's output for a text.
    Output,
    /// The listing of an image and its marks, with a choice and without.
    Listing(Arrivals),
    Unchosen,
    /// What the program for game files prints of an image, by its words.
    Dis,
}

/// What is given, in parts that are repeated, each with its letter. In a text, and in words, each character stands for
/// the byte of its number; images and marks are in hex.
#[derive(Clone)]
pub struct Case {
    pub about: String,
    pub asked: Asked,
    /// The listing program has the unwrapped one, and that for game files is told by its words.
    mode: Mode,
    parts: Vec<(char, usize, String)>,
}

impl Case {
    pub fn new(about: &str, text: &str) -> Case {
        let about = about.to_string();
        let lines = text.split_inclusive('\n');
        let parts = lines.map(|line| ('T', 1, line.to_string())).collect();
        Case {
            about,
            asked: Asked::Output,
            mode: Mode::Unwrapped,
            parts,
        }
    }

    pub fn in_mode(mut self, mode: Mode) -> Case {
        self.mode = mode;
        self
    }

    /// Of an image and marks, in hex.
    pub fn of_marks(about: &str, asked: Asked, image: &str, marks: &str) -> Case {
        let mut case = Case::new(about, "");
        case.asked = asked;
        case.and_part('B', 1, image).and_part('M', 1, marks)
    }

    /// Of an image in hex and words.
    pub fn of_words(about: &str, words: &[&str], image: &str) -> Case {
        let mut case = Case::new(about, "");
        case.asked = Asked::Dis;
        case.and_part('B', 1, image).and_words(1, words)
    }

    pub fn and(self, times: usize, part: &str) -> Case {
        self.and_part('T', times, part)
    }

    /// Each ended by byte 0.
    pub fn and_words(self, times: usize, words: &[&str]) -> Case {
        let ended: Vec<String> = words.iter().map(|word| format!("{word}\0")).collect();
        self.and_part('G', times, &ended.concat())
    }

    pub fn and_part(mut self, letter: char, times: usize, part: &str) -> Case {
        if !part.is_empty() {
            self.parts.push((letter, times, part.to_string()));
        }
        self
    }

    fn given(&self, wanted: char) -> String {
        let parts = self.parts.iter().filter(|(letter, ..)| *letter == wanted);
        parts.map(|(_, times, part)| part.repeat(*times)).collect()
    }

    pub fn text(&self) -> Vec<u8> {
        characters(&self.given('T'))
    }

    pub fn words(&self) -> Vec<u8> {
        characters(&self.given('G'))
    }

    pub fn image(&self) -> Vec<u8> {
        bytes(&self.given('B'))
    }

    pub fn marks(&self) -> Vec<u8> {
        bytes(&self.given('M'))
    }

    /// And whether it is the message of the program for game files.
    pub fn output(&self) -> (String, bool) {
        let output = match self.asked {
            Asked::Output => listing::output(&self.text()),
            Asked::Listing(arrivals) => self.listing(arrivals),
            Asked::Unchosen => self.listing(Arrivals::DEFAULT),
            Asked::Dis => match dis::output(&self.words(), &self.image()) {
                Dis::Listing(listing) => listing,
                Dis::Message(message) => return (message, true),
            },
        };
        (output, false)
    }

    fn listing(&self, arrivals: Arrivals) -> String {
        listing::listing(self.mode, &self.image(), &self.marks(), arrivals)
    }

    pub fn lines(&self) -> String {
        let (output, is_message) = self.output();
        let mut lines = format!("#{}\n", self.about);
        if self.mode == Mode::Wrapping {
            lines += "W\n";
        }
        for (letter, times, part) in &self.parts {
            if *times != 1 {
                lines += &format!("N{times}\n");
            }
            lines += &format!("{letter}{}\n", stored(part));
        }
        let shown = if output.len() <= WHOLE { WHOLE } else { SOME };
        for line in output.split_inclusive('\n').take(shown) {
            lines += &format!("X{}\n", stored(line));
        }
        let sum = format!("S{}\n", sum::of(output.as_bytes()));
        lines + &sum + &self.last(output.len(), is_message)
    }

    fn last(&self, length: usize, is_message: bool) -> String {
        match self.asked {
            Asked::Output => {
                let bad = input::parse(&self.text()).err().unwrap_or(0);
                format!("L{bad}\n={length}\n")
            }
            Asked::Listing(Arrivals::Declined) => format!("-{length}\n"),
            Asked::Listing(Arrivals::Chosen) => format!("+{length}\n"),
            Asked::Unchosen => format!("?{length}\n"),
            Asked::Dis if is_message => format!("m{length}\n"),
            Asked::Dis => format!("d{length}\n"),
        }
    }
}

fn characters(text: &str) -> Vec<u8> {
    let byte = |c| u8::try_from(u32::from(c)).expect("a character for each byte");
    text.chars().map(byte).collect()
}

fn bytes(hex: &str) -> Vec<u8> {
    let pairs = hex.as_bytes().chunks(2);
    let byte = |pair| u8::from_str_radix(str::from_utf8(pair).expect("digits"), 16);
    pairs.map(|pair| byte(pair).expect("two digits")).collect()
}

/// As a line of the list has it.
pub fn stored(part: &str) -> String {
    let stands = |c| {
        let taken = MEANT.iter().any(|(_, other)| *other == c);
        assert!(!taken, "{c} stands for a byte");
        let found = MEANT.iter().find(|(byte, _)| *byte == c);
        assert!(found.is_some() || c.is_ascii_graphic(), "{c:?}");
        found.map_or(c, |(_, other)| *other)
    };
    part.chars().map(stands).collect()
}
