//! The built programs, run on a text or on a file. The environment names them as PW_LIST, PW_REPORT and PW_DIS, or does not where
//! there is none.

use std::ffi::{OsStr, c_int, c_ulong};
use std::fmt;
use std::io::{Read, Write};
use std::os::fd::AsRawFd;
use std::os::unix::ffi::OsStrExt;
use std::path::{self, Path, PathBuf};
use std::process::{ChildStdin, Command, Stdio};
use std::sync::atomic::{AtomicBool, Ordering};
use std::thread;

/// So much of what was printed is shown.
const SHOWN: usize = 80;

pub struct Program(PathBuf);

/// What a program printed, and whether it ended well.
#[derive(PartialEq)]
pub struct Printed {
    well: bool,
    text: Vec<u8>,
}

/// What a program printed on standard output and on standard error, and whether it ended well.
#[derive(PartialEq, Debug)]
pub struct Spoken {
    output: Printed,
    error: Printed,
}

impl Program {
    pub fn list() -> Option<Program> {
        Program::named("PW_LIST")
    }

    pub fn report() -> Option<Program> {
        Program::named("PW_REPORT")
    }

    pub fn dis() -> Option<Program> {
        Program::named("PW_DIS")
    }

    /// An empty path is none.
    fn named(variable: &str) -> Option<Program> {
        let path = path::absolute(std::env::var_os(variable)?);
        path.ok().map(Program)
    }

    /// With these words, in a folder.
    pub fn speak(&self, folder: &Path, words: &[Vec<u8>]) -> Spoken {
        let mut command = Command::new(&self.0);
        let words = words.iter().map(|word| OsStr::from_bytes(word));
        let named = command.current_dir(folder).args(words).stdin(Stdio::null());
        let spoken = named.output().expect("the program can be run");
        let well = spoken.status.success();
        let printed = |text| Printed { well, text };
        Spoken {
            output: printed(spoken.stdout),
            error: printed(spoken.stderr),
        }
    }

    /// It may leave the rest of the text unread.
    pub fn print(&self, text: &[u8]) -> Printed {
        self.print_in_blocks(text, usize::MAX)
    }

    /// A block is written once the one before it was read: so it is met by a read of its own, or by several.
    pub fn print_in_blocks(&self, text: &[u8], size: usize) -> Printed {
        let mut command = Command::new(&self.0);
        let piped = command.stdin(Stdio::piped()).stdout(Stdio::piped());
        let mut running = piped.spawn().expect("the program can be run");
        let input = running.stdin.take().expect("its input is a pipe");
        let mut output = running.stdout.take().expect("its output is a pipe");
        let (ended, mut printed) = (AtomicBool::new(false), vec![]);
        let status = thread::scope(|scope| {
            scope.spawn(|| feed(input, text, size, &ended));
            let read = output.read_to_end(&mut printed);
            let status = running.wait().expect("it ends");
            ended.store(true, Ordering::Relaxed);
            read.expect("its output can be read");
            status
        });
        Printed {
            well: status.success(),
            text: printed,
        }
    }
}

/// Ends early where the program does.
fn feed(mut input: ChildStdin, text: &[u8], size: usize, ended: &AtomicBool) {
    for block in text.chunks(size) {
        while unread(&input) > 0 {
            if ended.load(Ordering::Relaxed) {
                return;
            }
            thread::yield_now();
        }
        if input.write_all(block).is_err() {
            return;
        }
    }
}

unsafe extern "C" {
    fn ioctl(file: c_int, request: c_ulong, ...) -> c_int;
}

/// Asks how many bytes stand in a pipe, on Linux.
const FIONREAD: c_ulong = 0x541B;

fn unread(input: &ChildStdin) -> c_int {
    let mut count: c_int = 0;
    let failed = unsafe { ioctl(input.as_raw_fd(), FIONREAD, &mut count) };
    assert!(failed == 0, "Linux tells this of a pipe");
    count
}

impl Spoken {
    pub fn well(output: &str, error: &[u8]) -> Spoken {
        let error = Printed {
            well: true,
            text: error.to_vec(),
        };
        Spoken {
            output: Printed::well(output),
            error,
        }
    }

    /// How long what was printed is.
    pub fn lengths(&self) -> [usize; 2] {
        [self.output.text.len(), self.error.text.len()]
    }
}

impl Printed {
    pub fn well(text: &str) -> Printed {
        Printed {
            well: true,
            text: text.as_bytes().to_vec(),
        }
    }

    pub fn shown(&self) -> String {
        String::from_utf8_lossy(&self.text).into_owned()
    }
}

impl fmt::Debug for Printed {
    fn fmt(&self, f: &mut fmt::Formatter) -> fmt::Result {
        let (count, well) = (self.text.len(), self.well);
        let beginning = String::from_utf8_lossy(&self.text[..count.min(SHOWN)]);
        write!(f, "{count} bytes {beginning:?}, ended well: {well}")
    }
}
