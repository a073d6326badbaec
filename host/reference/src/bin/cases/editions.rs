//! The cases of the two editions of a state.

use crate::calls::{longest, net, state, ROOM};
use crate::{Call, Cases};
use reference::number::put_number;
use reference::{read_description, read_state, sparse, POOL};

pub fn add(cases: &mut Cases) {
    both_editions(cases);
    bounds(cases);
    refused(cases);
    first_fault(cases);
    before_other_questions(cases);
    rooms(cases);
    longest_states(cases);
}

/// Place 1 lies in a group, the places 2 and 3 in one inside it, and place 4 is loose; a group has no place. The first event has no
/// arc: recording it writes the state as it was read.
fn nested() -> Vec<u8> {
    net(
        &[1, 2, 2, 0],
        &[(0, 9), (1, 4), (0, 0)],
        &[&[], &[(1, 1, 0), (2, 0, 1)], &[(3, 3, 0), (4, 0, 1)]],
        &[(9, &[(1, 1), (2, 2)]), (130, &[(2, 1), (3, 1)])],
    )
}

/// The state of these bytes in edition 2.
pub fn in_second(d: &[u8], s: &[u8]) -> Vec<u8> {
    let net = read_description(d).unwrap();
    sparse(&net, &read_state(&net, s).unwrap())
}

fn stored(numbers: &[u32]) -> Vec<u8> {
    let mut bytes = Vec::new();
    numbers.iter().for_each(|&n| put_number(&mut bytes, n));
    bytes
}

impl Cases {
    /// Every call that reads a state, with the first event and a head count of place 4.
    fn every_call(&mut self, label: &str, d: &[u8], s: &[u8]) {
        self.event(label, d, s, 1);
        self.known(label, d, s);
        self.count(&format!("{label}, count"), d, s, &[4], 7, [ROOM, ROOM]);
        self.older(&format!("{label}, older"), d, s, ROOM);
        self.dense(&format!("{label}, dense"), d, s, ROOM);
        self.sparse(&format!("{label}, sparse"), d, s, ROOM);
    }
}

/// States that fit, each in both editions: without a pair, with one at the last place, with one for each place, and with all that
/// is unplaced inside; numbers of one byte and of several.
fn both_editions(cases: &mut Cases) {
    let d = nested();
    for (estimates, unplaced) in
        [([0, 0, 0, 0], [0, 0, 0]), ([0, 0, 0, 7], [9, 4, 0]), ([5, 0, 128, 0], [300, 128, 0]), ([1, 2, 3, 4], [4, 4, 0])]
    {
        let s = state(&estimates, &unplaced);
        for (edition, s) in [(1, &s), (2, &in_second(&d, &s))] {
            let label = format!("{estimates:?} {unplaced:?} in edition {edition}");
            cases.every_call(&label, &d, s);
            cases.event(&label, &d, s, 2);
            cases.event(&label, &d, s, 3);
        }
    }
    for (label, s) in [("fresh", state(&[0, 0, 0], &[3])), ("all known", state(&[0, 3, 0], &[0]))] {
        cases.every_call(&format!("pool, {label} in edition 2"), &POOL, &in_second(&POOL, &s));
    }
    let loose = net(&[0, 0], &[], &[&[]], &[]);
    cases.every_call("no group in edition 2", &loose, &stored(&[2, 2, 1, 2, 65_536, 0]));
}

/// An estimate, a remainder and a sum of remainders at the bound, and one past it.
fn bounds(cases: &mut Cases) {
    for n in [65_535, 65_536, 16_777_215, 16_777_216] {
        for (what, numbers) in [
            ("an estimate", [2, 4, 1, 4, n, 3, 0, 0, 0].as_slice()),
            ("a remainder", &[2, 4, 0, 3, n, 0, 0]),
            ("a remainder inside", &[2, 4, 0, 3, 0, n, 0]),
            ("1 and a remainder inside: together", &[2, 4, 0, 3, 1, n - 1, 0]),
            ("a remainder and 1 inside: together", &[2, 4, 0, 3, n - 1, 1, 0]),
        ] {
            let (label, s) = (format!("in edition 2, {what} {n}"), stored(numbers));
            cases.known(&label, &nested(), &s);
            cases.older(&format!("{label}, older"), &nested(), &s, ROOM);
            cases.dense(&format!("{label}, dense"), &nested(), &s, ROOM);
        }
    }
}

/// States in edition 2 with one fault.
fn refused(cases: &mut Cases) {
    for (fault, numbers) in [
        ("edition 0 instead", [0, 4, 1, 4, 7, 3, 5, 4, 0].as_slice()),
        ("edition 3 instead", &[3, 4, 1, 4, 7, 3, 5, 4, 0]),
        ("the numbers of edition 1", &[2, 4, 0, 0, 0, 7, 3, 9, 4, 0]),
        ("three places", &[2, 3, 1, 3, 7, 3, 5, 4, 0]),
        ("five places", &[2, 5, 1, 4, 7, 3, 5, 4, 0]),
        ("five pairs", &[2, 4, 5, 1, 1, 2, 1, 3, 1, 4, 1, 5, 1, 3, 5, 4, 0]),
        ("place 0", &[2, 4, 1, 0, 7, 3, 5, 4, 0]),
        ("place 5", &[2, 4, 1, 5, 7, 3, 5, 4, 0]),
        ("place 4294967295", &[2, 4, 1, 4_294_967_295, 7, 3, 5, 4, 0]),
        ("a place twice", &[2, 4, 2, 4, 7, 4, 7, 3, 5, 4, 0]),
        ("places falling", &[2, 4, 2, 4, 7, 3, 7, 3, 5, 4, 0]),
        ("an estimate of 0", &[2, 4, 1, 4, 0, 3, 5, 4, 0]),
        ("a later estimate of 0", &[2, 4, 3, 1, 2, 3, 0, 4, 7, 3, 5, 4, 0]),
        ("two groups", &[2, 4, 1, 4, 7, 2, 5, 4, 0]),
        ("four groups", &[2, 4, 1, 4, 7, 4, 5, 4, 0]),
        ("a remainder without a place", &[2, 4, 1, 4, 7, 3, 5, 4, 1]),
        ("a number more", &[2, 4, 1, 4, 7, 3, 5, 4, 0, 0]),
    ] {
        cases.every_call(&format!("in edition 2, {fault}"), &nested(), &stored(numbers));
    }
    let s = stored(&[2, 4, 1, 4, 7, 3, 5, 4, 0]);
    for at in 0..s.len() {
        let longer = [&s[..at], &[s[at] | 0x80, 0], &s[at + 1..]].concat();
        cases.dense(&format!("in edition 2, {at} bytes, dense"), &nested(), &s[..at], ROOM);
        cases.dense(&format!("in edition 2, a longer form at {at}, dense"), &nested(), &longer, ROOM);
    }
}

/// Of two faults the first is answered, whatever stands after it.
fn first_fault(cases: &mut Cases) {
    for (faults, numbers) in [
        ("three places, then place 0", [2, 3, 1, 0].as_slice()),
        ("five pairs, then place 0", &[2, 4, 5, 0]),
        ("an estimate past the bound, then place 0", &[2, 4, 2, 1, 16_777_216, 0]),
        ("place 0, then nothing", &[2, 4, 1, 0]),
        ("place 5, then an estimate past the bound", &[2, 4, 1, 5, 16_777_216]),
        ("a place twice, then an estimate of 0", &[2, 4, 2, 3, 7, 3, 0]),
        ("an estimate of 0, then nothing", &[2, 4, 1, 4, 0]),
        ("an estimate of 0, then two groups", &[2, 4, 1, 4, 0, 2, 5, 4]),
        ("an estimate of 0, then a remainder without a place", &[2, 4, 1, 4, 0, 3, 5, 4, 1]),
        ("an estimate of 0, then a number more", &[2, 4, 1, 4, 0, 3, 5, 4, 0, 0]),
    ] {
        let (label, s) = (format!("in edition 2, {faults}"), stored(numbers));
        cases.known(&label, &nested(), &s);
        cases.dense(&format!("{label}, dense"), &nested(), &s, ROOM);
        cases.sparse(&format!("{label}, sparse"), &nested(), &s, ROOM);
    }
    let ill_formed = |numbers: &[u32]| [&stored(numbers)[..], &[0x80, 0]].concat();
    cases.dense("in edition 2, a place in a longer form, dense", &nested(), &ill_formed(&[2, 4, 1]), ROOM);
    cases.dense("in edition 2, place 0 and a longer form, dense", &nested(), &ill_formed(&[2, 4, 1, 0]), ROOM);
    cases.dense("in edition 2, place 1 and a longer form, dense", &nested(), &ill_formed(&[2, 4, 1, 1]), ROOM);
}

/// 9 and 18 come before 10, 14, 17 and 13.
fn before_other_questions(cases: &mut Cases) {
    let d = nested();
    for (refusal, s) in [(9, stored(&[2, 4, 1, 4, 65_536, 3, 0, 0, 1])), (18, stored(&[2, 4, 2, 3, 65_536, 0]))] {
        let label = format!("in edition 2, {refusal} first");
        cases.add(&format!("{label}, record 0"), &d, &s, Call::Record, 0, 0);
        cases.add(&format!("{label}, judge 0"), &d, &s, Call::Judge, 0, 0);
        cases.count(&format!("{label}, count"), &d, &s, &[], 16_777_216, [0, 0]);
        cases.older(&format!("{label}, older"), &d, &s, 0);
        cases.dense(&format!("{label}, dense"), &d, &s, 0);
        cases.sparse(&format!("{label}, sparse"), &d, &s, 0);
    }
}

/// No room, one byte too few, and exactly enough; the two editions differ in length.
fn rooms(cases: &mut Cases) {
    let d = nested();
    let first = state(&[0, 0, 128, 0], &[300, 300, 0]);
    let second = in_second(&d, &first);
    let lengths = [first.len() as u32, second.len() as u32];
    for (edition, s) in [(1, &first), (2, &second)] {
        for room in [0, lengths[0] - 1, lengths[0]] {
            cases.dense(&format!("from edition {edition} in {room}, dense"), &d, s, room);
        }
        for room in [0, lengths[1] - 1, lengths[1]] {
            cases.sparse(&format!("from edition {edition} in {room}, sparse"), &d, s, room);
        }
    }
    for room in [lengths[1] - 1, lengths[1]] {
        cases.add(&format!("in edition 2 in {room}, record 1"), &d, &second, Call::Record, 1, room);
    }
}

/// The longest states: 387 bytes in edition 1, and 452 in edition 2.
fn longest_states(cases: &mut Cases) {
    let (d, first) = (longest(), state(&[16_777_215; 64], &[16_777_215; 32]));
    let second = in_second(&d, &first);
    assert_eq!([first.len(), second.len()], [387, 452]);
    for room in [451, 452] {
        cases.sparse(&format!("the longest state in {room}, sparse"), &d, &first, room);
        cases.add(&format!("the longest state in edition 2 in {room}, record 1"), &d, &second, Call::Record, 1, room);
    }
    cases.dense("the longest state in 386, dense", &d, &second, 386);
    cases.dense("the longest state in 387, dense", &d, &second, 387);
    cases.known("the longest state in edition 2", &d, &second);
}
