//! The examples of docs/REFERENCE.md, whose last section says how they are written: each call is made through the library and by
//! the reference, each journal printed by the program and by the reference. What host/test_c/line.c prints is read as calls from
//! fresh on the net of the section "The line".

use reference::journal::journal;
use reference::number::{put_number, Bytes};
use reference::{read_description, read_state, write_description, write_state};
use seeded::hex;
use std::collections::BTreeSet;
use std::fs;
use std::io::Write;
use std::process::{Command, Stdio};
use yarrowbeam::{Refusal, LARGEST_DESCRIPTION, LARGEST_STATE};

const TOP: &str = concat!(env!("CARGO_MANIFEST_DIR"), "/../..");

/// The smallest net, whose only event has the number 1.
const SMALLEST: [u8; 8] = [1, 1, 1, 0, 1, 0, 1, 0];

fn text(file: &str) -> String {
    fs::read_to_string(format!("{TOP}/{file}")).unwrap_or_else(|error| panic!("{file}: {error}"))
}

/// The bytes, or nothing where some word is not a byte.
fn bytes(words: &str) -> Option<Vec<u8>> {
    words.split_whitespace().map(|word| (word.len() == 2).then(|| u8::from_str_radix(word, 16).ok()).flatten()).collect()
}

fn number(word: &str) -> u32 {
    word.parse().unwrap_or_else(|_| panic!("no number: {word}"))
}

// ---- the calls

/// What a call asks: its words before the arrow.
type Words<'a> = [&'a str];

/// What a call answers in words, and the description that is used from then on.
type Answer = Result<(String, Vec<u8>), u32>;

/// The rooms for a description and for a state; where there is one number behind `into`, it is the second.
fn rooms(words: &Words) -> [usize; 2] {
    let given = words.iter().position(|word| *word == "into").map_or(&[][..], |at| &words[at + 1..]);
    match given {
        [] => [LARGEST_DESCRIPTION, LARGEST_STATE],
        [state] => [LARGEST_DESCRIPTION, number(state) as usize],
        _ => [0, 1].map(|i| number(given[i]) as usize),
    }
}

/// The places of a head count: the bytes behind `at`.
fn places(words: &Words) -> Vec<u8> {
    let listed: Vec<&str> = words[3..].iter().copied().take_while(|word| *word != "into").collect();
    bytes(&listed.join(" ")).expect("bytes")
}

fn by_library(words: &Words, d: &[u8], s: &[u8]) -> Answer {
    let (mut described, mut out) = ([0xA5; LARGEST_DESCRIPTION], [0xA5; LARGEST_STATE]);
    let [room, state_room] = rooms(words);
    let (described, lent) = (&mut described[..room], &mut out[..state_room]);
    let answer = match words {
        ["fresh", ..] => yarrowbeam::fresh(d, lent).map(|length| hex(&lent[..length])),
        ["record", event, ..] => yarrowbeam::record(d, s, number(event), lent).map(|length| hex(&lent[..length])),
        ["judge", event] => yarrowbeam::judge(d, s, number(event)).map(|verdict| match verdict {
            yarrowbeam::Verdict::Allow => "allow".to_string(),
            yarrowbeam::Verdict::Hold(limit) => format!("hold {limit}"),
        }),
        ["older", ..] => yarrowbeam::older(d, s, lent).map(|length| hex(&lent[..length])),
        ["dense", ..] => yarrowbeam::dense(d, s, lent).map(|length| hex(&lent[..length])),
        ["sparse", ..] => yarrowbeam::sparse(d, s, lent).map(|length| hex(&lent[..length])),
        ["known"] => yarrowbeam::known(d, s).map(|known| if known { "yes" } else { "no" }.to_string()),
        ["count", n, "at", ..] => {
            let written = yarrowbeam::count(d, s, &places(words), number(n), described, lent);
            let (length, state_length) = written.map_err(Refusal::number)?;
            return Ok((hex(&lent[..state_length]), described[..length].to_vec()));
        }
        _ => panic!("no call: {words:?}"),
    };
    answer.map(|words| (words, d.to_vec())).map_err(Refusal::number)
}

fn by_reference(words: &Words, d: &[u8], s: &[u8]) -> Answer {
    let [room, state_room] = rooms(words);
    let fitting = |bytes: Vec<u8>| if bytes.len() <= state_room { Ok(hex(&bytes)) } else { Err(13u32) };
    let net = read_description(d)?;
    if words[0] == "fresh" {
        return Ok((fitting(write_state(&net, &reference::fresh(&net)))?, d.to_vec()));
    }
    let state = read_state(&net, s)?;
    let answer = match words {
        ["record", event, ..] => fitting(write_state(&net, &reference::record(&net, &state, number(event))?))?,
        ["judge", event] => match reference::judge(&net, &state, number(event))? {
            reference::Verdict::Allow => "allow".to_string(),
            reference::Verdict::Hold(limit) => format!("hold {limit}"),
        },
        ["older", ..] => fitting(reference::older(&state)?)?,
        ["dense", ..] => fitting(reference::dense(&state))?,
        ["sparse", ..] => fitting(reference::sparse(&net, &state))?,
        ["count", n, "at", ..] => {
            let (net, state) = reference::count(&net, &state, &places(words), number(n))?;
            let described = write_description(&net);
            return if described.len() <= room { Ok((fitting(write_state(&net, &state))?, described)) } else { Err(13) };
        }
        _ => if reference::known(&net, &state) { "yes" } else { "no" }.to_string(),
    };
    Ok((answer, d.to_vec()))
}

fn said(answer: Result<String, u32>) -> String {
    answer.unwrap_or_else(|refusal| format!("refused {refusal}"))
}

// ---- the journal

/// What the program prints for a description and the bytes after it, which the reference must print too.
fn printed(d: &[u8], events: &[u8]) -> String {
    let mut input = Vec::new();
    put_number(&mut input, d.len() as u32);
    input.extend_from_slice(d);
    input.extend_from_slice(events);
    let mut program = Command::new(format!("{TOP}/target/bin/journal"))
        .stdin(Stdio::piped())
        .stdout(Stdio::piped())
        .spawn()
        .expect("the program, which `host/make journal` makes");
    program.stdin.take().expect("a pipe").write_all(&input).expect("its input is read");
    let lines = String::from_utf8(program.wait_with_output().expect("its output").stdout).expect("text");
    assert_eq!(lines, journal(&input), "the journal of {}", hex(&input));
    lines
}

/// A stored number, as the journal reads it where event numbers stand: one that no event has is refused by its line.
fn stored(form: &[u8]) -> String {
    let lines = printed(&SMALLEST, form);
    lines.strip_suffix(" refused 10 0\n").unwrap_or(lines.trim_end()).to_string()
}

fn signed(form: &[u8]) -> String {
    said(Bytes::new(form).signed().map(|n| n.to_string()))
}

// ---- the examples

/// An example as far as it is read: the description and the state that the last call left, and the refusals that were met.
#[derive(Default)]
struct Example {
    description: Vec<u8>,
    /// The description that a head count wrote, which the lines below it must show.
    written: Option<Vec<u8>>,
    state: Vec<u8>,
    refusals: BTreeSet<String>,
}

impl Example {
    /// The description stands here whole; where a head count wrote it, it is what was written.
    fn described(&mut self) {
        if let Some(written) = self.written.take() {
            assert_eq!(hex(&self.description), hex(&written), "the description that a head count writes");
        }
    }

    /// A call, whose answer is shown.
    fn call(&mut self, asked: &str, shown: &str) {
        self.described();
        let words: Vec<&str> = asked.split_whitespace().collect();
        let [library, reference] = [by_library, by_reference].map(|by| by(&words, &self.description, &self.state));
        assert_eq!(library, reference, "{asked} by the library and by the reference");
        assert_eq!(said(library.clone().map(|(answer, _)| answer)), shown, "{asked}");
        if let (Some(state), "fresh" | "record" | "count" | "dense" | "sparse") = (bytes(shown), words[0]) {
            self.state = state;
        }
        match library {
            Ok((_, description)) if words[0] == "count" => {
                self.description.clear();
                self.written = Some(description);
            }
            Ok(_) => (),
            Err(_) => drop(self.refusals.insert(shown.to_string())),
        }
    }

    /// A description that stands in one line, and what fresh answers; all calls refuse it alike.
    fn whole(&mut self, description: Vec<u8>, shown: &str) {
        self.description = description;
        self.call("fresh", shown);
        if shown.starts_with("refused") {
            self.all_refuse(shown);
        }
    }

    /// All calls that take a state refuse it, or the description, alike.
    fn all_refuse(&mut self, shown: &str) {
        for call in ["record 1", "judge 1", "known", "count 0 at 01", "older", "dense", "sparse"] {
            self.call(call, shown);
        }
    }

    fn line(&mut self, line: &str) {
        match line.split_once("->").map(|(asked, shown)| (asked.trim(), shown.trim())) {
            Some((asked, shown)) => match (asked.split_once(' '), bytes(asked)) {
                (_, Some(description)) => self.whole(description, shown),
                (Some(("number", form)), _) => assert_eq!(stored(&bytes(form).expect("bytes")), shown, "{line}"),
                (Some(("signed", form)), _) => assert_eq!(signed(&bytes(form).expect("bytes")), shown, "{line}"),
                (Some(("state", state)), _) => {
                    self.state = bytes(state).expect("bytes");
                    self.all_refuse(shown);
                }
                _ => self.call(asked, shown),
            },
            None => match line.strip_prefix("state ") {
                Some(state) => self.state = bytes(state).expect("bytes"),
                None => self.description.extend(bytes(line).unwrap_or_else(|| panic!("no bytes: {line}"))),
            },
        }
    }

    /// The lines of an example, each without its remark; those after the line of a journal are what it prints.
    fn read(lines: &str) -> Example {
        let mut example = Example::default();
        let mut lines = lines.lines().map(|line| line.trim().split("  ").next().unwrap_or(""));
        while let Some(line) = lines.next() {
            if let Some(events) = line.strip_prefix("journal ") {
                example.described();
                let shown: String = lines.by_ref().map(|line| format!("{line}\n")).collect();
                assert_eq!(printed(&example.description, &bytes(events).expect("bytes")), shown);
            } else {
                example.line(line);
            }
        }
        example.described();
        example
    }
}

/// The examples in a text.
fn blocks(page: &str) -> impl Iterator<Item = &str> {
    page.split("```example\n").skip(1).map(|rest| rest.split("```").next().unwrap_or(rest))
}

#[test]
fn examples() {
    let page = text("docs/REFERENCE.md");
    let examples: Vec<Example> = blocks(&page).map(Example::read).collect();
    let met: BTreeSet<&String> = examples.iter().flat_map(|example| &example.refusals).collect();
    let all: Vec<String> = (1..=18).map(|refusal| format!("refused {refusal}")).collect();
    assert_eq!(met, all.iter().collect(), "each refusal has an example");
}

#[test]
fn the_line() {
    let page = text("docs/REFERENCE.md");
    let (_, section) = page.split_once("### The line\n").expect("the section");
    let mut line = Example::read(blocks(section).next().expect("its example"));
    let net = read_description(&line.description).expect("a net");
    line.state = write_state(&net, &reference::fresh(&net));
    text("host/test_c/expected").lines().for_each(|call| line.line(call));
}
