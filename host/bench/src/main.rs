//! The host's calls beside two observers in Rust, in one process, by turns; and the journal beside that of the reference, in
//! processes of their own. Prints the tables of docs/PERFORMANCE.md; with the word `journal` only that of the journal.

mod host;
mod journal;
mod nets;
mod plain;
mod stack;
mod strong;
mod values;

use nets::{Case, Numbers};
use reference::BOUND;
use std::hint::black_box;
use std::time::Instant;

/// One observer's eight calls.
struct Observer {
    name: &'static str,
    fresh: fn(&[u8], &mut [u8]) -> i64,
    record: fn(&[u8], &[u8], u32, &mut [u8]) -> i64,
    judge: fn(&[u8], &[u8], u32) -> i64,
    known: fn(&[u8], &[u8]) -> i64,
    count: fn(&[u8], &[u8], &[u8], u32, &mut [u8], &mut [u8]) -> i64,
    older: Convert,
    dense: Convert,
    sparse: Convert,
}

/// A call that writes a state again.
type Convert = fn(&[u8], &[u8], &mut [u8]) -> i64;

macro_rules! observer {
    ($name:ident) => {
        Observer {
            name: stringify!($name),
            fresh: $name::fresh,
            record: $name::record,
            judge: $name::judge,
            known: $name::known,
            count: $name::count,
            older: $name::older,
            dense: $name::dense,
            sparse: $name::sparse,
        }
    };
}

const OBSERVERS: [Observer; 3] = [observer!(host), observer!(strong), observer!(plain)];

/// The lengths of the largest state and of the largest description.
const ROOM: usize = yarrowbeam::LARGEST_STATE;
const LONGEST: usize = yarrowbeam::LARGEST_DESCRIPTION;

// ---- alike

/// What the calls are asked: an event, a head count, and the rooms for a description and for a state.
struct Asked<'a> {
    d: &'a [u8],
    s: &'a [u8],
    event: u32,
    places: &'a [u8],
    tokens: u32,
    described_room: usize,
    room: usize,
}

/// All that an observer answers and writes; behind each room stand bytes that nobody writes.
fn answers(observer: &Observer, asked: &Asked) -> ([i64; 8], [[u8; ROOM]; 6], Vec<u8>) {
    let &Asked { d, s, event, places, tokens, described_room, room } = asked;
    let mut written = [[0x5A; ROOM]; 6];
    let [begun, after, counted, older, dense, sparse] = written.each_mut().map(|out| &mut out[..room]);
    let mut described = vec![0x5A; described_room + 8];
    let numbers = [
        (observer.fresh)(d, begun),
        (observer.record)(d, s, event, after),
        (observer.judge)(d, s, event),
        (observer.known)(d, s),
        (observer.count)(d, s, places, tokens, &mut described[..described_room], counted),
        (observer.older)(d, s, older),
        (observer.dense)(d, s, dense),
        (observer.sparse)(d, s, sparse),
    ];
    (numbers, written, described)
}

/// How often a call met each refusal by its number, or 0 for bytes written.
type Refusals = [u32; 19];

/// What the inputs met: the refusals of calls; accepted states of edition 2; allowances, holds and yeses; fresh states with tokens at
/// a place, and head counts of one place that were written.
#[derive(Default)]
struct Met {
    recorded: Refusals,
    counted: Refusals,
    older: Refusals,
    dense: Refusals,
    sparse: Refusals,
    second: u32,
    allowed: u32,
    held: u32,
    known: u32,
    settled: u32,
    counted_one: u32,
}

/// Asserts that all observers answer and write the same.
fn compare(asked: &Asked, met: &mut Met) {
    let first = answers(&OBSERVERS[0], asked);
    for observer in &OBSERVERS[1..] {
        let Asked { d, s, event, places, tokens, described_room, room } = asked;
        assert_eq!(
            first,
            answers(observer, asked),
            "host and {}: {d:02X?} {s:02X?} {event} {places:?} {tokens} {described_room} {room}",
            observer.name
        );
    }
    let [fresh, recorded, judged, known, counted, older, dense, sparse] = first.0;
    met.recorded[usize::try_from(-recorded).unwrap_or(0)] += 1;
    met.counted[usize::try_from(-counted).unwrap_or(0)] += 1;
    met.older[usize::try_from(-older).unwrap_or(0)] += 1;
    met.dense[usize::try_from(-dense).unwrap_or(0)] += 1;
    met.sparse[usize::try_from(-sparse).unwrap_or(0)] += 1;
    met.second += u32::from(known >= 0 && asked.s[0] == 2);
    met.allowed += u32::from(judged == 0);
    met.held += u32::from(judged > 0);
    met.known += u32::from(known == 1);
    // after the edition and P stand the estimates, a byte each for as long as they are 0
    let begun = &first.1[0];
    met.settled += u32::from(fresh > 0 && begun[2..].iter().take(begun[1].into()).any(|&byte| byte != 0));
    met.counted_one += u32::from(counted > 0 && asked.places.len() == 1);
}

/// The bytes with some faults.
fn damaged(bytes: &[u8], numbers: &mut Numbers) -> Vec<u8> {
    let mut bytes = bytes.to_vec();
    for _ in 0..numbers.within(0, 2) {
        if bytes.is_empty() {
            break;
        }
        let at = (numbers.next() % bytes.len() as u64) as usize;
        match numbers.within(0, 5) {
            0 => bytes[at] = numbers.next() as u8,
            1 => bytes[at] ^= 1 << numbers.within(0, 7),
            2 => bytes[at] = bytes[at].wrapping_add(1),
            3 => bytes.truncate(at + 1),
            4 => bytes.insert(at, numbers.next() as u8),
            _ => drop(bytes.remove(at)),
        }
    }
    bytes
}

fn alike<'a>(cases: impl Iterator<Item = &'a Case>) {
    let mut met = Met::default();
    let mut numbers = Numbers(0x0123_4567_89AB_CDEF);
    for case in cases {
        let Case { d, places, tokens, .. } = case;
        let states = [case.s.clone(), nets::sparse(case).s];
        for s in &states {
            for event in 0..=65 {
                compare(&Asked { d, s, event, places, tokens: *tokens, described_room: LONGEST, room: ROOM }, &mut met);
            }
        }
        // Faults near the start of a description are met first, so those of its members get a share of their own.
        for i in 0..if case.d.len() < 1_000 { 100_000 } else { 8_000 } {
            let split = if i % 2 == 0 { case.d.len() } else { case.d.len().min(300) };
            let mut d = damaged(&case.d[..split], &mut numbers);
            d.extend(&case.d[split..]);
            let s = damaged(&states[i / 2 % 2], &mut numbers);
            let places = damaged(&case.places, &mut numbers);
            let asked = Asked {
                d: &d,
                s: &s,
                event: numbers.within(0, case.event + 1),
                places: &places,
                tokens: case.tokens,
                described_room: d.len() + numbers.within(0, 6) as usize,
                room: numbers.within(0, ROOM as u32) as usize,
            };
            compare(&asked, &mut met);
        }
    }
    for _ in 0..100_000 {
        let (d, s) = nets::small(&mut numbers);
        for event in 1..=3 {
            let places: Vec<u8> = (0..numbers.within(0, 3)).map(|_| numbers.within(0, 7) as u8).collect();
            let tokens = [numbers.within(0, 9), 65_536, BOUND, BOUND + 1][numbers.within(0, 3) as usize];
            let described_room = d.len() + numbers.within(3, 6) as usize;
            compare(&Asked { d: &d, s: &s, event, places: &places, tokens, described_room, room: ROOM }, &mut met);
        }
    }
    let refusals = |met: &[u32]| {
        let refused = met.iter().enumerate().skip(1).filter(|(_, &times)| times > 0);
        refused.map(|(refusal, times)| format!("{refusal} ({times})")).collect::<Vec<_>>().join(", ")
    };
    println!("All three observers answered and wrote alike on {} inputs.", met.recorded.iter().sum::<u32>());
    println!("Judging allowed {} and held {}, and {} states were known.", met.allowed, met.held, met.known);
    println!("Of the accepted states {} were of edition 2.", met.second);
    println!("Fresh had tokens at a place in {}, and {} head counts were of one place.", met.settled, met.counted_one);
    println!("Recording wrote for {}; its refusals, and how often: {}.", met.recorded[0], refusals(&met.recorded));
    println!("Counting wrote for {}; its refusals, and how often: {}.", met.counted[0], refusals(&met.counted));
    println!("Older observers got {} states; the refusals, and how often: {}.", met.older[0], refusals(&met.older));
    println!("Edition 1 was written of {} states; the refusals, and how often: {}.", met.dense[0], refusals(&met.dense));
    println!("Edition 2 was written of {} states; the refusals, and how often: {}.\n", met.sparse[0], refusals(&met.sparse));
}

// ---- time

type Call<'a> = Box<dyn FnMut() -> i64 + 'a>;

/// The nanoseconds of a call, for each: the least of many rounds, in which all take turns.
fn times(calls: &mut [Call]) -> Vec<f64> {
    let begin = Instant::now();
    let mut turns = 0u32;
    while begin.elapsed().as_millis() < 20 {
        for call in calls.iter_mut() {
            black_box(call());
        }
        turns += 1;
    }
    // a round's share of one observer takes about a millisecond
    let each = (turns * calls.len() as u32 / 20).max(1);
    let mut least = vec![f64::INFINITY; calls.len()];
    for _ in 0..200 {
        for (call, least) in calls.iter_mut().zip(&mut least) {
            let begin = Instant::now();
            for _ in 0..each {
                black_box(call());
            }
            *least = least.min(begin.elapsed().as_nanos() as f64 / f64::from(each));
        }
    }
    least
}

// One observer's calls on a case. The output is not cleared between calls.

fn fresh<'a>(observer: &'a Observer, case: &'a Case) -> Call<'a> {
    let mut begun = [0; ROOM];
    Box::new(move || (observer.fresh)(black_box(&case.d), black_box(&mut begun)))
}

fn record<'a>(observer: &'a Observer, case: &'a Case) -> Call<'a> {
    let mut after = [0; ROOM];
    Box::new(move || (observer.record)(black_box(&case.d), black_box(&case.s), case.event, black_box(&mut after)))
}

fn judge<'a>(observer: &'a Observer, case: &'a Case) -> Call<'a> {
    Box::new(move || (observer.judge)(black_box(&case.d), black_box(&case.s), case.event))
}

/// A call of one observer on a case.
type OnCase = for<'a> fn(&'a Observer, &'a Case) -> Call<'a>;

const CALLS: [(&str, OnCase); 3] = [("fresh", fresh), ("record", record), ("judge", judge)];

/// A head count by one observer on a case that has loose places.
fn count<'a>(observer: &'a Observer, case: &'a Case) -> Call<'a> {
    let (mut described, mut after) = (vec![0; LONGEST], [0; ROOM]);
    let Case { d, s, places, tokens, .. } = case;
    Box::new(move || {
        (observer.count)(black_box(d), black_box(s), black_box(places), *tokens, black_box(&mut described), black_box(&mut after))
    })
}

/// The state of a case, written again.
fn converted(convert: Convert, case: &Case) -> Call<'_> {
    let mut again = [0; ROOM];
    Box::new(move || convert(black_box(&case.d), black_box(&case.s), black_box(&mut again)))
}

fn older<'a>(observer: &'a Observer, case: &'a Case) -> Call<'a> {
    converted(observer.older, case)
}

fn dense<'a>(observer: &'a Observer, case: &'a Case) -> Call<'a> {
    converted(observer.dense, case)
}

fn sparse<'a>(observer: &'a Observer, case: &'a Case) -> Call<'a> {
    converted(observer.sparse, case)
}

/// The times of the three observers, and those of the host beside the others'.
fn row(ns: &[f64]) -> String {
    format!("{:.0} | {:.0} | {:.0} | {:.2} | {:.2}", ns[0], ns[1], ns[2], ns[0] / ns[1], ns[0] / ns[2])
}

fn time(cases: &[Case]) {
    println!("| net | bytes | call | host ns | strong ns | plain ns | host / strong | host / plain |");
    println!("|---|--:|---|--:|--:|--:|--:|--:|");
    for case in cases {
        let (mut net, mut bytes) = (case.name, case.d.len().to_string());
        for (name, call) in CALLS {
            let ns = times(&mut OBSERVERS.each_ref().map(|observer| call(observer, case)));
            println!("| {net} | {bytes} | {name} | {} |", row(&ns));
            (net, bytes) = ("", String::new());
        }
    }
    println!();
}

/// A call by its name, and the cases of it.
type Timed<'a> = (&'a str, OnCase, &'a [Case]);

/// A call, and beside it one that is measured by the same turns; a column of its own says how much of that one it takes. The column
/// of sizes has that of each one's case, and a blank where they are the same.
fn time_beside((name, call, cases): Timed, (other, beside, others): Timed, (column, size): (&str, fn(&Case) -> usize)) {
    println!("| net | bytes | {column} | call | host ns | strong ns | plain ns | host / strong | host / plain | host's {name} / {other} |");
    println!("|---|--:|--:|---|--:|--:|--:|--:|--:|--:|");
    for (case, other_case) in cases.iter().zip(others) {
        let mut both: Vec<Call> = OBSERVERS.iter().map(|observer| call(observer, case)).collect();
        both.extend(OBSERVERS.iter().map(|observer| beside(observer, other_case)));
        let ns = times(&mut both);
        let (first, second) = (size(other_case), size(case));
        let differing = if first == second { String::new() } else { second.to_string() };
        println!("| {} | {} | {first} | {other} | {} | |", case.name, case.d.len(), row(&ns[3..]));
        println!("|  |  | {differing} | {name} | {} | {:.2} |", row(&ns[..3]), ns[0] / ns[3]);
    }
    println!();
}

/// How the host's calls grow with the description's length.
fn growth(cases: &[Case]) {
    println!("| bytes | fresh ns | record ns | judge ns | fresh, ns a byte | judge, ns a byte |");
    println!("|--:|--:|--:|--:|--:|--:|");
    for case in cases {
        let ns = times(&mut CALLS.map(|(_, call)| call(&OBSERVERS[0], case)));
        let bytes = case.d.len();
        println!(
            "| {bytes} | {:.0} | {:.0} | {:.0} | {:.2} | {:.2} |",
            ns[0],
            ns[1],
            ns[2],
            ns[0] / bytes as f64,
            ns[2] / bytes as f64
        );
    }
    println!();
}

// ---- stack

/// On a net, for head counts on that net with loose places, and on the net with its state in edition 2.
fn stacks(case: &Case, loosened: &Case, second: &Case) {
    let on: [(&str, OnCase, &Case); 9] = [
        ("fresh", fresh, case),
        ("record", record, case),
        ("judge", judge, case),
        ("count", count, loosened),
        ("older", older, case),
        ("sparse", sparse, case),
        ("dense", dense, second),
        ("record in edition 2", record, second),
        ("judge in edition 2", judge, second),
    ];
    let nothing = stack::touched(&mut || ());
    println!("| stack, bytes | {} |", on.map(|(name, _, _)| name).join(" | "));
    println!("|---|{}", "--:|".repeat(on.len()));
    for observer in &OBSERVERS {
        let touched = on.map(|(_, call, case)| {
            let mut call = call(observer, case);
            stack::touched(&mut || {
                black_box(call());
            }) - nothing
        });
        println!("| {} | {} |", observer.name, touched.map(|bytes| bytes.to_string()).join(" | "));
    }
    println!();
}

fn main() {
    if std::env::args().any(|word| word == "journal") {
        return journal::speeds(&nets::rounds());
    }
    let (cases, held, loosened, [first, second]) = (nets::all(), nets::held(), nets::loosened(), nets::editions());
    alike(cases.iter().chain(&held).chain(&loosened));
    time(&cases);
    // the fourth number of a description; those before it have a byte each too
    let limits = |case: &Case| usize::from(case.d[3]);
    time_beside(("held", judge, &held), ("allowed", judge, &cases), ("limits", limits));
    time_beside(("count", count, &loosened), ("fresh", fresh, &loosened), ("places", |case| case.places.len()));
    let state = |case: &Case| case.s.len();
    time_beside(("older", older, &cases), ("fresh", fresh, &cases), ("state", state));
    time_beside(("record in edition 2", record, &second), ("record in edition 1", record, &first), ("state", state));
    time_beside(("judge in edition 2", judge, &second), ("judge in edition 1", judge, &first), ("state", state));
    time_beside(("dense", dense, &second), ("sparse", sparse, &first), ("state", state));
    growth(&nets::growing());
    stacks(&cases[2], &loosened[2], &nets::sparse(&cases[2]));
    journal::speeds(&nets::rounds());
}
