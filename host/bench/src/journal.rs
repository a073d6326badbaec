//! The journal programs: events a second of processor time. Each runs in a process of its own, with its input from a file and its
//! output to a pipe that is read and compared here. The calls on values stand beside them.

use crate::nets::Round;
use crate::values;
use reference::number::put_number;
use std::fs::{self, File};
use std::io::{Read, Seek, Write};
use std::path::{Path, PathBuf};
use std::process::{Child, Command, Stdio};
use std::thread::sleep;
use std::time::Duration;

/// An input has as many events as its program goes through in about so many seconds, within these bounds.
const SECONDS: f64 = 0.5;
const FEWEST: usize = 1_000;
const MOST: usize = 400_000;

/// How often each program runs on its input; the least time counts.
const TURNS: usize = 5;

/// How many events fit the time, where the fewest take so many seconds.
fn fitting(seconds: f64) -> usize {
    let events = (SECONDS / seconds * FEWEST as f64) as usize;
    events.clamp(FEWEST, MOST)
}

struct Program {
    name: &'static str,
    path: PathBuf,
}

impl Program {
    /// A program, by its path from the top of the repository.
    fn new(name: &'static str, path: &str) -> Program {
        Program { name, path: Path::new(env!("CARGO_MANIFEST_DIR")).join("../..").join(path) }
    }

    /// The processor's seconds for an input, where the program prints what it must.
    fn seconds(&self, input: &Input) -> f64 {
        let started = Command::new(&self.path).stdin(input.rewound()).stdout(Stdio::piped()).spawn();
        let mut child = started.unwrap_or_else(|error| panic!("{}: {error}", self.path.display()));
        let mut printed = Vec::new();
        child.stdout.take().expect("a pipe").read_to_end(&mut printed).expect("its output");
        let seconds = seconds_at_end(&child);
        assert!(child.wait().expect("its end").success(), "{} failed", self.name);
        assert!(printed == input.expected.as_bytes(), "{} printed something else than the reference", self.name);
        seconds
    }
}

/// The seconds for which a process ran on a processor. It is waited for until it has ended, so that the number is whole; its
/// numbers are there until its end is asked for.
fn seconds_at_end(child: &Child) -> f64 {
    let read = |file: &str| fs::read_to_string(format!("/proc/{}/{file}", child.id())).expect("a file of the process");
    // after its name, in brackets, stands its state: Z where it has ended
    while !read("stat").contains(") Z ") {
        sleep(Duration::from_micros(200));
    }
    let schedstat = read("schedstat");
    let nanoseconds = schedstat.split(' ').next().and_then(|number| number.parse::<u64>().ok());
    nanoseconds.expect("the nanoseconds come first") as f64 / 1e9
}

/// A description and so many events, in a file without a name, and what is to be printed for them.
struct Input {
    file: File,
    events: usize,
    expected: String,
}

impl Input {
    fn new(round: &Round, events: usize) -> Input {
        let mut bytes = Vec::new();
        put_number(&mut bytes, round.d.len() as u32);
        bytes.extend(&round.d);
        round.events.iter().cycle().take(events).for_each(|&event| put_number(&mut bytes, event));
        let name = std::env::temp_dir().join(format!("yarrowbeam-journal-{}", std::process::id()));
        let mut file = File::options().read(true).write(true).create_new(true).open(&name).expect("a file for the input");
        fs::remove_file(&name).expect("a name for the input");
        file.write_all(&bytes).expect("room for the input");
        Input { file, events, expected: reference::journal::journal(&bytes) }
    }

    /// One that the program goes through in due time.
    fn fitting(round: &Round, program: &Program) -> Input {
        Input::new(round, fitting(program.seconds(&Input::new(round, FEWEST))))
    }

    fn rewound(&self) -> File {
        let mut file = self.file.try_clone().expect("a descriptor");
        file.rewind().expect("a file's start");
        file
    }
}

/// The events a second of each program: all take turns, each on its input.
fn measure(programs: &[Program], inputs: &[Input]) -> Vec<f64> {
    let mut least = vec![f64::INFINITY; programs.len()];
    for _ in 0..TURNS {
        for (i, least) in least.iter_mut().enumerate() {
            *least = least.min(programs[i].seconds(&inputs[i]));
        }
    }
    least.iter().zip(inputs).map(|(seconds, input)| input.events as f64 / seconds).collect()
}

/// The table of speeds: the journals, and the calls on values, which read and print nothing.
pub fn speeds(rounds: &[Round]) {
    let programs = [
        Program::new("plain", "host/reference/target/release/journal"),
        Program::new("journal", "target/bin/journal"),
    ];
    println!("| net | program | events | events a second | beside plain |");
    println!("|---|---|--:|--:|--:|");
    for round in rounds {
        let inputs: Vec<Input> = programs.iter().map(|program| Input::fitting(round, program)).collect();
        let speeds = measure(&programs, &inputs);
        let mut rows: Vec<(&str, usize, f64)> =
            programs.iter().zip(&inputs).zip(&speeds).map(|((program, input), &speed)| (program.name, input.events, speed)).collect();
        let events = fitting(values::seconds(round, FEWEST));
        let least = (0..TURNS).map(|_| values::seconds(round, events)).fold(f64::INFINITY, f64::min);
        rows.push(("calls on values", events, events as f64 / least));
        for (i, (program, events, speed)) in rows.into_iter().enumerate() {
            let (net, beside) = (if i == 0 { round.name } else { "" }, speed / speeds[0]);
            println!("| {net} | {program} | {events} | {speed:.0} | {beside:.2} |");
        }
    }
}
