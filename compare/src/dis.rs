//! What the built program for game files prints of a file: the listing on standard output or a message on standard error, and nothing on
//! the other. It is ours and of no document: the plain side by its definitions judges.

use crate::program::{Program, Spoken};
use crate::share;
use crate::tally::{Call, Judge, Tally};
use crate::words::{self, Command, Words};
use compare::paper::dis::{self, Dis};
use compare::paper::tracer;
use compare::random::Random;
use std::ffi::OsStr;
use std::os::unix::ffi::OsStrExt;
use std::path::PathBuf;
use std::{env, fs, process};

/// How files and words are made, and how many.
const COMMANDS: [(fn(&mut Random) -> Command, u64); 6] = [
    (words::good, 2_000),
    (words::game, 500),
    (words::long, 300),
    (words::at_limits, 300),
    (words::spoiled, 2_000),
    (words::loose, 500),
];
/// Names of files, some of which would be something else where a word stands.
const NAMES: [&[u8]; 9] = [
    b"game",
    b"a b.vms",
    b"0",
    b"-",
    b"--pin",
    b"--wrapping",
    b"./game",
    b"dis: x",
    b"\xFF\x01",
];
/// A name longer than this is refused unread, and one that is still longer is taken for none.
const LONGEST_NAME: usize = 4_095;
/// All words, each with its byte 0.
const LONGEST_WORDS: usize = 65_535;
const USAGE: &str = "usage: dis FILE [ENTRY..] [--pin HEX] [--wrapping] [--no-arrivals]\n";
const TOO_LONG: &str = "dis: the arguments are longer than 65535 bytes\n";
/// So many words of a command line are shown, and so much of a file.
const SHOWN: usize = 60;

struct Runs<'a> {
    tally: &'a mut Tally,
    program: Program,
    folder: Folder,
}

/// A folder of its own for the files, which goes with it.
struct Folder(PathBuf);

pub fn compare(tally: &mut Tally, random: &mut Random) {
    let Some(program) = Program::dis() else {
        return;
    };
    let mut runs = Runs {
        tally,
        program,
        folder: Folder::new(),
    };
    for (make, count) in COMMANDS {
        for _ in 0..share::times(count) {
            let (image, words) = make(random);
            runs.file(random.pick(&NAMES), &image, &words);
        }
    }
    runs.largest();
    runs.long_names();
    runs.long_words();
    runs.no_file();
}

impl Runs<'_> {
    fn file(&mut self, name: &[u8], image: &[u8], words: &Words) {
        self.folder.put(name, image);
        self.there(name, image, words);
    }

    /// Of a file that is there.
    fn there(&mut self, name: &[u8], image: &[u8], words: &Words) {
        let listed = dis::listed(&ended(words), image);
        let number = listed.as_ref().map_or_else(|refusal| refusal.number, |_| 0);
        let expected = match dis::output(&ended(words), image) {
            Dis::Listing(listing) => Spoken::well(&listing, b""),
            Dis::Message(message) => Spoken::well("", message.as_bytes()),
        };
        self.tally.commands.count(number, &expected);
        self.one(
            number,
            expected,
            [&[name.to_vec()], &words[..]].concat(),
            image,
        );
    }

    /// Of these words, the file's name first.
    fn one(&mut self, number: u32, expected: Spoken, words: Words, image: &[u8]) {
        let ours = self.program.speak(&self.folder.0, &words);
        let what = (Call::Dis, Judge::Document);
        let input = || shown(&words, image);
        self.tally
            .judge(what, None, (number, &expected), &ours, input);
    }

    /// Where nothing is listed, and why is told without a number.
    fn told(&mut self, told: &[u8], words: Words) {
        self.tally.commands.unnumbered += 1;
        self.one(0, Spoken::well("", told), words, &[]);
    }

    /// The largest listing known, and that image's others.
    fn largest(&mut self) {
        let image = [&[0x44; tracer::LONGEST - 2][..], &[0x54, 0x94]].concat();
        for options in [&["--wrapping"][..], &[], &["--no-arrivals"]] {
            let words = ["0", "1", "2"].iter().chain(options);
            let words = words.map(|word| word.as_bytes().to_vec()).collect();
            self.file(b"game", &image, &words);
        }
    }

    /// The file is not there, or cannot be opened: its name is told, whatever the words. One that opens and cannot be read is empty.
    fn no_file(&mut self) {
        self.folder.put(b"game", b"\xA0");
        let failing: [(&[u8], &str); 6] = [
            (b"none", "No such file or directory"),
            (b"none/game", "No such file or directory"),
            (b"no\nne", "No such file or directory"),
            (b"game/none", "Not a directory"),
            (b"game/", "Not a directory"),
            (&[b'n'; 256], "File name too long"),
        ];
        for (name, why) in failing {
            let told = [b"dis: ", name, b": ", why.as_bytes(), b"\n"].concat();
            for words in [&[][..], &[b"0".to_vec()], &[b"x".to_vec()], &[vec![]]] {
                self.told(&told, [&[name.to_vec()], words].concat());
            }
        }
        self.told(USAGE.as_bytes(), vec![]);
        self.told(USAGE.as_bytes(), vec![vec![]]);
        self.told(USAGE.as_bytes(), vec![vec![], b"0".to_vec()]);
        self.one(
            0,
            Spoken::well("", b""),
            vec![b".".to_vec(), b"0".to_vec()],
            &[],
        );
    }

    /// Names at the limit, all of the same file.
    fn long_names(&mut self) {
        let name = |length: usize| {
            let slashes = vec![b'/'; length - ".game".len()];
            [b".", &slashes[..], b"game"].concat()
        };
        self.folder.put(b"game", b"\xA0");
        self.there(&name(LONGEST_NAME), b"\xA0", &vec![b"0".to_vec()]);
        let long = name(LONGEST_NAME + 1);
        let told = [b"dis: ", &long[..], b": File name too long\n"].concat();
        self.told(&told, vec![long]);
        self.told(USAGE.as_bytes(), vec![name(LONGEST_NAME + 2)]);
    }

    /// Words at the limit: a word of that length, and options over and over.
    fn long_words(&mut self) {
        let word = |length: usize| vec![vec![b'A'; length - 1]];
        let options = |wraps: usize, declines: usize| {
            let wraps = vec![b"--wrapping".to_vec(); wraps];
            [wraps, vec![b"--no-arrivals".to_vec(); declines]].concat()
        };
        for (words, length) in [
            (word(LONGEST_WORDS), LONGEST_WORDS),
            (word(LONGEST_WORDS + 1), LONGEST_WORDS + 1),
            (word(LONGEST_WORDS + 2), LONGEST_WORDS + 2),
            (options(5_945, 10), LONGEST_WORDS),
            (options(5_954, 3), LONGEST_WORDS + 1),
            (options(5_945, 11), LONGEST_WORDS + 14),
        ] {
            assert_eq!(ended(&words).len(), length);
            match length <= LONGEST_WORDS {
                true => self.file(b"game", b"\x80\x00\xA0", &words),
                false => self.told(
                    TOO_LONG.as_bytes(),
                    [vec![b"game".to_vec()], words].concat(),
                ),
            }
        }
    }
}

impl Folder {
    fn new() -> Folder {
        let folder = env::temp_dir().join(format!("compare-dis-{}", process::id()));
        fs::create_dir(&folder).expect("a folder for files can be made");
        Folder(folder)
    }

    fn put(&self, name: &[u8], image: &[u8]) {
        let path = self.0.join(OsStr::from_bytes(name));
        fs::write(path, image).expect("a file can be written");
    }
}

impl Drop for Folder {
    fn drop(&mut self) {
        fs::remove_dir_all(&self.0).expect("the folder can be removed");
    }
}

/// Each word ended by byte 0.
fn ended(words: &Words) -> Vec<u8> {
    let ended = words.iter().map(|word| [word, &b"\0"[..]].concat());
    ended.collect::<Words>().concat()
}

fn shown(words: &Words, image: &[u8]) -> String {
    let some = words
        .iter()
        .take(SHOWN)
        .map(|word| String::from_utf8_lossy(word));
    let (count, some) = (words.len(), some.collect::<Vec<_>>());
    let (length, beginning) = (image.len(), &image[..image.len().min(SHOWN)]);
    format!("dis with {count} words {some:?}, a file of {length} bytes {beginning:02X?}")
}
