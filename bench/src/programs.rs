//! The term report as a program, ours and the plain one, which is this one called with `--plain-report`: both read the same file and
//! print the same. Measured is the processor's time of each, as the system counts it.

use crate::plain::report::Reporter;
use crate::report;
use crate::rows::{Measured, Row};
use std::env;
use std::ffi::{c_int, c_long};
use std::fs::{self, File};
use std::io::{self, Read, Write};
use std::path::Path;
use std::process::{Command, Stdio};

pub const PLAIN: &str = "--plain-report";
const SAMPLES: usize = 7;

/// What the plain program does: it reads its input to the end, and prints the report of it.
pub fn plain() -> io::Result<()> {
    let mut text = vec![];
    io::stdin().lock().read_to_end(&mut text)?;
    let mut reporter = Reporter::default();
    reporter.report(&text);
    io::stdout().lock().write_all(&reporter.printed)
}

/// Both by turns, on a term of so many images. Nothing is measured where ours was not made, which `PW_REPORT` names.
pub fn measure(text: &[u8], images: usize) -> Result<Option<Measured>, &'static str> {
    let ours = env::var_os("PW_REPORT").unwrap_or_default();
    if !Path::new(&ours).is_file() {
        println!("report, the program: not measured, since PW_REPORT names none");
        return Ok(None);
    }
    let plain = env::current_exe().map_err(|_| "report, the program")?;
    let term = env::temp_dir().join(format!("pottagewing-term-{}", std::process::id()));
    fs::write(&term, text).map_err(|_| "report, the program")?;
    let mut times = [vec![], vec![]];
    for _ in 0..SAMPLES {
        let (time, printed) = run(Command::new(&ours), &term)?;
        times[0].push(time);
        let mut command = Command::new(&plain);
        command.arg(PLAIN);
        let (time, same) = run(command, &term)?;
        times[1].push(time);
        if printed != same {
            return Err("report, the program");
        }
    }
    let _ = fs::remove_file(&term);
    let [ours, plain] = times.map(lowest);
    let times = [Some(ours), None, Some(plain)];
    let row = Row::ReportProgram;
    report::line(row.name(), report::per(times, images));
    let times = vec![times];
    Ok(Some(Measured { row, times }))
}

/// The processor's time of one run, and what it printed.
fn run(mut command: Command, term: &Path) -> Result<(f64, Vec<u8>), &'static str> {
    let input = File::open(term).map_err(|_| "report, the program")?;
    let before = of_children();
    let output = command.stdin(Stdio::from(input)).output();
    let output = output.map_err(|_| "report, the program")?;
    Ok((of_children() - before, output.stdout))
}

/// The shortest, as everywhere.
fn lowest(times: Vec<f64>) -> f64 {
    times.into_iter().fold(f64::INFINITY, f64::min)
}

/// As C has it on 64-bit Linux.
#[repr(C)]
struct Usage {
    user: [c_long; 2],
    system: [c_long; 2],
    rest: [c_long; 14],
}

unsafe extern "C" {
    fn getrusage(who: c_int, usage: *mut Usage) -> c_int;
}

/// The seconds of all programs that ran to their end.
fn of_children() -> f64 {
    const CHILDREN: c_int = -1;
    let mut usage = Usage {
        user: [0; 2],
        system: [0; 2],
        rest: [0; 14],
    };
    unsafe { getrusage(CHILDREN, &mut usage) };
    let seconds = |[whole, millionths]: [c_long; 2]| whole as f64 + millionths as f64 / 1e6;
    seconds(usage.user) + seconds(usage.system)
}
