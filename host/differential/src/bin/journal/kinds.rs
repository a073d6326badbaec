//! What the cases meet, in words, and what they must meet.

use reference::number::Bytes;
use reference::{fresh, holding, read_description, record};
use seeded::met::Met;
use seeded::nets::{deepest, depths, settled};
use std::ops::RangeInclusive;

/// A description that is longer goes on past the program's buffer.
pub const BUFFER: usize = 32_763;

/// What an input and what is printed for it meet.
pub fn count(input: &[u8], printed: &str, met: &mut Met<String>) {
    for line in printed.lines() {
        let words: Vec<&str> = line.split(' ').collect();
        match words[..] {
            [_, "allow", "0", ..] => met.count("line: allow".to_string()),
            [_, word @ ("hold" | "refused"), number, ..] => met.count(format!("line: {word} {number}")),
            _ => (),
        }
        let tokens: Vec<u32> = words.iter().skip(3).filter_map(|word| word.parse().ok()).collect();
        for edge in [65_535, 65_536, 16_777_215].into_iter().filter(|edge| tokens.contains(edge)) {
            met.count(format!("line: {edge} tokens"));
        }
    }
    // before any event, so that only what was counted can be too much
    if printed.lines().next().is_some_and(|line| line.contains(" refused 12 ")) {
        met.count("first line: refused 12".to_string());
    }
    let end = follow(input, met);
    met.count(format!("end: {end}"));
}

/// Follows the input, counts what its parts are, and answers how it ends.
fn follow(input: &[u8], met: &mut Met<String>) -> String {
    let mut bytes = Bytes::new(input);
    let Ok(length) = bytes.number() else { return format!("refused 1, the length is {}", fault(bytes.left)) };
    let length = length as usize;
    let past = |what: &str| format!("description past the buffer, {what}");
    if length > bytes.left.len() {
        if length > BUFFER {
            met.count(past("the input ends in it"));
        }
        return "refused 1, the length is past the input".to_string();
    }
    let (description, events) = bytes.left.split_at(length);
    let net = match read_description(description) {
        Ok(net) => net,
        Err(refusal) => {
            if length > BUFFER {
                met.count(past(if refusal == 8 { "whole before its end" } else { "refused before its end" }));
            }
            return format!("refused {refusal}, the description");
        }
    };
    if !events.is_empty() {
        met.count(format!("net: {}", ["no group", "one group", "several groups"][net.groups.len().min(2)]));
        met.count(format!("net: {} deep", deepest(&net)));
        let depths = depths(&net);
        settled(&net).into_iter().for_each(|g| met.count(format!("group with tokens and one place: {} deep", depths[g])));
    }
    let mut events = Bytes::new(events);
    let mut state = fresh(&net);
    while !events.left.is_empty() {
        let before = events.left.len();
        let Ok(event) = events.number() else { return format!("refused 1, an event number is {}", fault(events.left)) };
        met.count(format!("event number: {} bytes", before - events.left.len()));
        if event == 0 {
            met.count("event number: 0".to_string());
        }
        if event as usize == net.takes.len() + 1 {
            met.count("event number: T + 1".to_string());
        }
        match holding(&net, &state, event).as_deref() {
            Ok([named]) => met.count(format!("line: hold {named} alone")),
            Ok([.., named]) => met.count(format!("line: hold {named} over others")),
            _ => (),
        }
        state = record(&net, &state, event).unwrap_or(state);
    }
    "silent".to_string()
}

/// Why no stored number stands at the start of these bytes, and whether others follow it.
fn fault(bytes: &[u8]) -> String {
    let Some(last) = bytes.iter().position(|byte| byte & 0x80 == 0) else { return "not complete".to_string() };
    let fault = if last > 0 && bytes[last] == 0 { "not shortest" } else { "too large" };
    format!("{fault}, {}", if last + 1 < bytes.len() { "in the middle" } else { "at the end" })
}

/// All that must be met, in the order in which it is printed.
pub fn due() -> Vec<String> {
    let ill_formed = ["not complete", "not shortest, in the middle", "too large, in the middle"];
    let words = |of: &str, kinds: &[&str]| -> Vec<String> { kinds.iter().map(|kind| format!("{of}{kind}")).collect() };
    let numbers = |of: &str, kinds: RangeInclusive<u32>, rest: &str| -> Vec<String> {
        kinds.map(|number| format!("{of}{number}{rest}")).collect()
    };
    [
        words("line: ", &["allow"]),
        numbers("line: hold ", 1..=16, ""),
        numbers("line: hold ", 1..=16, " alone"),
        numbers("line: hold ", 2..=16, " over others"),
        numbers("line: refused ", 10..=12, ""),
        words("first line: ", &["refused 12"]),
        words("line: ", &["65535 tokens", "65536 tokens", "16777215 tokens"]),
        words("event number: ", &["0", "T + 1"]),
        numbers("event number: ", 1..=5, " bytes"),
        words("end: ", &["silent"]),
        words("end: refused 1, the length is ", &["past the input"]),
        words("end: refused 1, the length is ", &ill_formed),
        numbers("end: refused ", 1..=8, ", the description"),
        words("end: refused 1, an event number is ", &ill_formed),
        words("end: refused 1, an event number is ", &["not shortest, at the end", "too large, at the end"]),
        words("description past the buffer, ", &["refused before its end", "whole before its end", "the input ends in it"]),
        words("net: ", &["no group", "one group", "several groups", "8 deep"]),
        numbers("group with tokens and one place: ", 1..=8, " deep"),
        words("reads: ", &["one piece", "two pieces", "several pieces", "a byte each", "a pipe", "a line each"]),
    ]
    .concat()
}
