//! The cases of head counts.

use crate::calls::{net, state, ROOM};
use crate::editions::in_second;
use crate::Cases;
use reference::{count, fresh, read_description, record, write_description, write_state, Edition};

pub fn add(cases: &mut Cases) {
    accepted(cases);
    refused(cases);
    rooms(cases);
    groups(cases);
    longest(cases);
    one_after_the_other(cases, "carts in turn", Edition::First);
    one_after_the_other(cases, "carts in turn in edition 2", Edition::Second);
}

/// The places 1, 2 and 4 are loose; the places 3 and 6 lie in a group, and 5 and 7 in one inside it.
fn carts() -> Vec<u8> {
    net(
        &[0, 0, 1, 0, 2, 1, 2],
        &[(0, 5), (1, 2)],
        &[&[(1, 1, 0), (4, 0, 1)], &[(4, 1, 0), (5, 0, 1)], &[(2, 1, 3)]],
        &[(4, &[(2, 1), (4, 2)])],
    )
}

/// After a cart came to place 4.
fn one_seen() -> Vec<u8> {
    state(&[0, 0, 0, 1, 0, 0, 0], &[5, 2])
}

/// A state that no list of calls gave, with numbers up to this one.
fn given(most: u32) -> Vec<u8> {
    state(&[most - 535, most, 7, 400, 9, 0, 0], &[most, most])
}

impl Cases {
    fn counts(&mut self, label: &str, d: &[u8], s: &[u8], asked: &[(&[u8], u32)]) {
        for &(places, tokens) in asked {
            self.count(&format!("{label}, count {tokens} at {places:?}"), d, s, places, tokens, [ROOM, ROOM]);
        }
    }
}

/// Lists in any order, and numbers of one to four bytes from the estimates up to the bound.
fn accepted(cases: &mut Cases) {
    let (d, s) = (carts(), one_seen());
    let short: [(&[u8], u32); 6] = [(&[1], 0), (&[4], 1), (&[4], 127), (&[4], 128), (&[4, 1], 129), (&[1, 4], 16_384)];
    let long: [(&[u8], u32); 4] = [(&[4, 2, 1], 65_535), (&[4], 65_536), (&[1, 2], 2_097_152), (&[2, 4, 1], 16_777_215)];
    cases.counts("carts", &d, &s, &[&short[..], &long].concat());
    for most in [65_535, 16_777_215] {
        let asked: [(&[u8], u32); 3] = [(&[2], most), (&[4, 1], most - 135), (&[1, 4], most)];
        cases.counts(&format!("carts at a state up to {most}"), &d, &given(most), &asked);
    }
    // together above 65,535
    cases.counts("carts at a state up to 65535", &d, &given(65_535), &[(&[1, 2], 130_535), (&[1, 2], 16_777_215)]);
}

fn refused(cases: &mut Cases) {
    let (d, s) = (carts(), one_seen());
    cases.counts("carts, no state", &d, &[], &[(&[], 16_777_216)]);
    cases.counts("carts, a state cut short", &d, &s[..s.len() - 1], &[(&[], 16_777_216)]);
    cases.counts("carts", &d, &s, &[(&[], 3), (&[0], 3), (&[8], 3), (&[255, 1], 3), (&[1, 4, 1], 3), (&[3], 3)]);
    cases.counts("carts", &d, &s, &[(&[1, 5], 16_777_216)]);
    cases.count("carts, count at all places 13 times", &d, &s, &[1, 2, 3, 4, 5, 6, 7].repeat(13), 3, [ROOM, ROOM]);
    cases.counts("carts", &d, &s, &[(&[4], 0), (&[1, 4], 16_777_216), (&[1], 4_294_967_295)]);
    for most in [65_535, 16_777_215] {
        let asked: [(&[u8], u32); 3] = [(&[2], most - 1), (&[1, 2], most), (&[1, 2, 4], 0)];
        cases.counts(&format!("carts at a state up to {most}"), &d, &given(most), &asked);
    }
    // one less than the estimates there, and as many as the estimates there, which add up to more than the bound
    cases.counts("carts at a state up to 65535", &d, &given(65_535), &[(&[1, 2], 130_534)]);
    cases.counts("carts at a state up to 16777215", &d, &given(16_777_215), &[(&[1, 2], 33_553_895)]);
}

/// How much room there is for the description and for the state: three bytes more and one more than before.
fn rooms(cases: &mut Cases) {
    let (d, s) = (carts(), one_seen());
    let (enough, enough_of_state) = (d.len() as u32 + 3, s.len() as u32 + 1);
    for rooms in [[enough, enough_of_state], [enough - 1, enough_of_state], [enough, enough_of_state - 1], [0, ROOM], [ROOM, 0], [0, 0]] {
        cases.count(&format!("carts, count in {rooms:?}"), &d, &s, &[1, 4], 3, rooms);
    }
}

/// A 32nd group, and a 33rd.
fn groups(cases: &mut Cases) {
    for number in [31, 32] {
        let d = net(&[0, 0], &vec![(0, 0); number], &[&[]], &[]);
        let s = state(&[0, 1], &vec![0; number]);
        cases.counts(&format!("{number} groups"), &d, &s, &[(&[2], 7), (&[2], 0), (&[], 0)]);
        cases.count(&format!("{number} groups, count in nothing"), &d, &s, &[2], 7, [0, 0]);
    }
}

/// A head count that leaves the longest state: 387 bytes, or 452 in edition 2.
fn longest(cases: &mut Cases) {
    let homes: Vec<usize> = (0..64).map(|p| if p < 62 { 1 + p / 2 } else { 0 }).collect();
    let d = net(&homes, &[(0, 16_777_215); 31], &[&[]], &[]);
    let s = state(&[2_097_152; 64], &[2_097_152; 31]);
    let second = in_second(&d, &s);
    assert_eq!([s.len() + 4, second.len() + 4], [387, 452]);
    for (room, s) in [(386, &s), (387, &s), (451, &second), (452, &second)] {
        cases.count(&format!("the longest state, count in {room}"), &d, s, &[64, 63], 16_777_215, [ROOM, room]);
    }
}

/// Two head counts and events between them, from fresh: each call gets what the one before it left, in this edition.
fn one_after_the_other(cases: &mut Cases, label: &str, edition: Edition) {
    let mut net = read_description(&carts()).unwrap();
    let mut state = fresh(&net);
    state.edition = edition;
    for (event, places, tokens) in [(1, &[4, 1][..], 4), (2, &[2], 3), (3, &[1], 1)] {
        let (d, s) = (write_description(&net), write_state(&net, &state));
        cases.event(label, &d, &s, event);
        if let Ok(next) = record(&net, &state, event) {
            state = next;
        }
        let s = write_state(&net, &state);
        cases.counts(label, &d, &s, &[(places, tokens)]);
        if let Ok(next) = count(&net, &state, places, tokens) {
            (net, state) = next;
        }
        cases.known(label, &write_description(&net), &write_state(&net, &state));
    }
}
