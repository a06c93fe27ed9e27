//! A case and its lines in the stored list.

use compare::answer::Answer;
use compare::paper::replay::{self, Traced};
use compare::paper::{Mode, tracer};

/// A count before, where no other is told.
const OLD: u64 = 7;
/// So many bytes of an image or of marks stand on a line.
const IN_LINE: usize = 32;

#[derive(Clone)]
pub struct Case {
    about: String,
    mode: Mode,
    image: Vec<u8>,
    marks: Vec<u8>,
    entries: Vec<u32>,
    counts: Vec<u64>,
    text: Vec<u8>,
}

/// The text of a log.
pub fn log(positions: &[usize]) -> Vec<u8> {
    let lines = positions.iter().map(|at| format!("P\t{at:04X}\n"));
    lines.collect::<String>().into_bytes()
}

impl Case {
    /// Over the marks of a run to its end.
    pub fn new(about: &str, mode: Mode, image: &[u8], entries: &[u32], text: &[u8]) -> Case {
        let (mut marks, mut order) = (vec![0; image.len()], vec![0; image.len()]);
        tracer::run(mode, image, &mut marks, &mut order, entries, &[], u32::MAX);
        Case {
            about: about.to_string(),
            mode,
            image: image.to_vec(),
            marks,
            entries: entries.to_vec(),
            counts: vec![OLD; image.len()],
            text: text.to_vec(),
        }
    }

    /// With another mark.
    pub fn marked(mut self, at: usize, mark: u8) -> Case {
        self.marks[at] = mark;
        self
    }

    /// With other entries lent than the trace had.
    pub fn entered(self, entries: &[u32]) -> Case {
        let entries = entries.to_vec();
        Case { entries, ..self }
    }

    /// With another count before.
    pub fn counted(mut self, at: usize, count: u64) -> Case {
        self.counts[at] = count;
        self
    }

    /// With so many marks and counts lent.
    pub fn in_rooms(mut self, marks: usize, counts: usize) -> Case {
        self.marks.resize(marks, 0);
        self.counts.resize(counts, OLD);
        self
    }

    fn traced(&self) -> Traced<'_> {
        Traced {
            mode: self.mode,
            image: &self.image,
            marks: &self.marks,
            entries: &self.entries,
        }
    }

    /// The answer, and the counts once the lines before the first bad one are taken.
    fn replayed(&self) -> (Answer, Vec<u64>) {
        let mut counts = self.counts.clone();
        match replay::told(self.traced(), &self.text, &self.counts) {
            Err(refusal) => (refusal, counts),
            Ok(told) => {
                told.add_to(&mut counts);
                (told.answer(), counts)
            }
        }
    }

    /// The case, whose answer is known.
    pub fn answers(self, number: u32, values: &[i64]) -> Case {
        let (answer, _) = self.replayed();
        assert_eq!(answer, Answer::new(number, values), "{}", self.about);
        self
    }

    pub fn lines(&self) -> String {
        let (answer, after) = self.replayed();
        let text = self.text.split_inclusive(|byte| *byte == b'\n');
        let length = self.image.len();
        let mut lines = format!("#{}\n", self.about);
        if self.mode == Mode::Wrapping {
            lines += "W\n";
        }
        lines.extend(text.map(text_line));
        lines += &format!("N{length:08X}\n");
        for (letter, lent) in [('K', self.marks.len()), ('C', self.counts.len())] {
            if lent != length {
                lines += &format!("{letter}{lent:08X}\n");
            }
        }
        lines.extend(parts('B', &self.image));
        lines.extend(parts('M', &self.marks));
        lines.extend(self.entries.iter().map(|entry| format!("E{entry:08X}\n")));
        lines.extend(counts('V', &self.counts, |_| OLD));
        lines.extend(counts('X', &after, |at| self.counts[at]));
        lines + &end(&answer)
    }
}

/// As it is, where nothing of it is easily lost; else in hex.
fn text_line(line: &[u8]) -> String {
    let is_kept = |byte: &u8| byte.is_ascii_graphic() || *byte == b'\t';
    match line {
        [shown @ .., b'\n'] if shown.iter().all(is_kept) && shown.last() != Some(&b'\t') => {
            format!("T{}\n", str::from_utf8(shown).expect("graphic characters"))
        }
        _ => format!("H{}\n", hex(line)),
    }
}

fn parts(letter: char, bytes: &[u8]) -> impl Iterator<Item = String> {
    let chunks = bytes.chunks(IN_LINE).enumerate();
    let told = chunks.filter(|(_, chunk)| chunk.iter().any(|byte| *byte != 0));
    told.map(move |(index, chunk)| format!("{letter}{:04X}{}\n", index * IN_LINE, hex(chunk)))
}

/// The counts that are others than these.
fn counts(letter: char, counts: &[u64], others: impl Fn(usize) -> u64) -> Vec<String> {
    let told = counts.iter().enumerate();
    let told = told.filter(|(at, count)| **count != others(*at));
    told.map(|(at, count)| format!("{letter}{at:04X}{count:016X}\n"))
        .collect()
}

fn hex(bytes: &[u8]) -> String {
    bytes.iter().map(|byte| format!("{byte:02X}")).collect()
}

/// The last line of a case.
fn end(answer: &Answer) -> String {
    let [a, b, c, ..] = answer.values;
    let letter = match answer.number {
        Answer::DONE => return format!("w{a:08X}{b:08X}{c:08X}\n"),
        Answer::LONG_IMAGE => 'l',
        Answer::SHORT_MARKS => 's',
        Answer::DAMAGED => 'd',
        Answer::NO_ROOM => 'r',
        Answer::MALFORMED_LOG => 'm',
        Answer::NOT_TRACED => 'u',
        Answer::FORBIDDEN_MOVE => 'f',
        Answer::COUNT_FULL => 'o',
        number => panic!("no answer has {number}"),
    };
    format!("{letter}{a:08X}\n")
}
