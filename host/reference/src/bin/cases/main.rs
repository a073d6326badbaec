//! Writes the list of cases that the program `cases` reads, and what it must print: `cases STDIN STDOUT`.
//!
//! A case is a label, a description, a state and a list of places, each after its length as a stored number, then the call, the
//! event or the tokens of a head count, and the rooms for a description and for a state. The answers are those of the reference.

mod answers;
mod calls;
mod descriptions;
mod editions;
mod head_counts;
mod older;
mod one_place;
mod parts;
mod random;

use reference::number::put_number;
use std::fmt::Write;

/// The program has no room for a longer list.
const LONGEST: usize = 262_144;

/// What a case asks.
#[derive(Clone, Copy)]
enum Call {
    Fresh = 1,
    Record,
    Judge,
    Known,
    /// What the description is read as.
    Describe,
    /// How the description is refused with each value of one byte; the event is its position, from 0.
    Changed,
    Count,
    Older,
    Dense,
    Sparse,
}

/// The list of cases so far, and a line for each.
#[derive(Default)]
struct Cases {
    input: Vec<u8>,
    output: String,
}

impl Cases {
    /// A case, and the line that answers it.
    fn add(&mut self, label: &str, d: &[u8], s: &[u8], call: Call, event: u32, room: u32) {
        let said = answers::said(d, s, call, event, room);
        self.put([label.as_bytes(), d, s, &[]], [call as u32, event, 0, room], &format!("{label}:{said}"));
    }

    /// A head count: so many tokens at the places.
    fn count(&mut self, label: &str, d: &[u8], s: &[u8], places: &[u8], tokens: u32, rooms: [u32; 2]) {
        let said = answers::counted(d, s, places, tokens, rooms);
        let numbers = [Call::Count as u32, tokens, rooms[0], rooms[1]];
        self.put([label.as_bytes(), d, s, places], numbers, &format!("{label}:{said}"));
    }

    /// The same state written again: for older observers, in edition 1 or in edition 2.
    fn rewrite(&mut self, label: &str, d: &[u8], s: &[u8], call: Call, room: u32) {
        let said = answers::rewritten(d, s, call, room);
        self.put([label.as_bytes(), d, s, &[]], [call as u32, 0, 0, room], &format!("{label}:{said}"));
    }

    fn older(&mut self, label: &str, d: &[u8], s: &[u8], room: u32) {
        self.rewrite(label, d, s, Call::Older, room);
    }

    fn dense(&mut self, label: &str, d: &[u8], s: &[u8], room: u32) {
        self.rewrite(label, d, s, Call::Dense, room);
    }

    fn sparse(&mut self, label: &str, d: &[u8], s: &[u8], room: u32) {
        self.rewrite(label, d, s, Call::Sparse, room);
    }

    fn put(&mut self, parts: [&[u8]; 4], numbers: [u32; 4], line: &str) {
        for part in parts {
            put_number(&mut self.input, part.len() as u32);
            self.input.extend_from_slice(part);
        }
        for n in numbers {
            put_number(&mut self.input, n);
        }
        writeln!(self.output, "{line}").unwrap();
    }
}

fn main() {
    let mut cases = Cases::default();
    descriptions::add(&mut cases);
    calls::add(&mut cases);
    head_counts::add(&mut cases);
    older::add(&mut cases);
    one_place::add(&mut cases);
    editions::add(&mut cases);
    let mut files = std::env::args().skip(1);
    let mut file = || files.next().expect("cases STDIN STDOUT");
    assert!(cases.input.len() <= LONGEST, "{} bytes", cases.input.len());
    std::fs::write(file(), cases.input).expect("a file that can be written");
    std::fs::write(file(), cases.output).expect("a file that can be written");
}
