//! A case and its lines in the stored list.

use compare::answer::Answer;
use compare::paper::{Mode, back};

/// What stands in the rooms before.
const OLD: u8 = b'~';
/// So many bytes of an image or of marks stand on a line.
const IN_LINE: usize = 32;

#[derive(Clone)]
pub struct Case {
    about: String,
    mode: Mode,
    text: Vec<u8>,
    length: usize,
    /// How long the rooms are.
    image: usize,
    marks: usize,
}

impl Case {
    /// In each text a character stands for the byte of its number. The rooms are as long as is needed.
    pub fn new(about: &str, text: &str, length: usize) -> Case {
        let byte = |c| u8::try_from(u32::from(c)).expect("a character for each byte");
        Case {
            about: about.to_string(),
            mode: Mode::Unwrapped,
            text: text.chars().map(byte).collect(),
            length,
            image: length,
            marks: length,
        }
    }

    pub fn in_mode(self, mode: Mode) -> Case {
        Case { mode, ..self }
    }

    pub fn in_rooms(self, image: usize, marks: usize) -> Case {
        Case {
            image,
            marks,
            ..self
        }
    }

    /// The answer, and the rooms afterwards. What is not to be written must stay.
    pub fn read(&self) -> (Answer, Vec<u8>, Vec<u8>) {
        let (mut image, mut marks) = (vec![OLD; self.image], vec![OLD; self.marks]);
        let (mode, length) = (self.mode, self.length);
        let answer = back::read(mode, &self.text, length, &mut image, &mut marks);
        let written = if answer.done() { self.length } else { 0 };
        let stays = |room: &[u8]| room[written..].iter().all(|byte| *byte == OLD);
        assert!(stays(&image) && stays(&marks), "{}", self.about);
        image.truncate(written);
        marks.truncate(written);
        (answer, image, marks)
    }

    /// The case, whose answer is known.
    pub fn answers(self, number: u32, value: usize) -> Case {
        let (answer, ..) = self.read();
        let known = Answer::new(number, &[value as i64]);
        assert_eq!(answer, known, "{}", self.about);
        self
    }

    pub fn lines(&self) -> String {
        let (answer, image, marks) = self.read();
        let text = self.text.split_inclusive(|byte| *byte == b'\n');
        let mut lines = format!("#{}\n", self.about);
        if self.mode == Mode::Wrapping {
            lines += "W\n";
        }
        lines.extend(text.map(text_line));
        lines += &format!("N{:08X}\n", self.length);
        for (letter, room) in [('R', self.image), ('K', self.marks)] {
            if room != self.length {
                lines += &format!("{letter}{room:08X}\n");
            }
        }
        lines.extend(parts('B', &image));
        lines.extend(parts('M', &marks));
        lines + &format!("{}{:08X}\n", letter(answer.number), answer.values[0])
    }
}

/// As it is, where nothing of it is easily lost; else in hex.
fn text_line(line: &[u8]) -> String {
    let is_kept = |byte: &u8| byte.is_ascii_graphic() || *byte == b'\t';
    match line {
        [shown @ .., b'\n'] if shown.iter().all(is_kept) && shown.last() != Some(&b'\t') => {
            format!("T{}\n", str::from_utf8(shown).expect("graphic characters"))
        }
        _ => format!("H{}\n", hex(line)),
    }
}

fn parts(letter: char, bytes: &[u8]) -> impl Iterator<Item = String> {
    let chunks = bytes.chunks(IN_LINE).enumerate();
    let told = chunks.filter(|(_, chunk)| chunk.iter().any(|byte| *byte != 0));
    told.map(move |(index, chunk)| format!("{letter}{:04X}{}\n", index * IN_LINE, hex(chunk)))
}

fn hex(bytes: &[u8]) -> String {
    bytes.iter().map(|byte| format!("{byte:02X}")).collect()
}

fn letter(number: u32) -> char {
    match number {
        Answer::DONE => 'w',
        Answer::LONG_IMAGE => 'l',
        Answer::SHORT_MARKS => 's',
        Answer::NO_ROOM => 'r',
        Answer::MALFORMED_LINE => 'm',
        Answer::LINE_PAST_END => 'p',
        number => panic!("no answer has {number}"),
    }
}
