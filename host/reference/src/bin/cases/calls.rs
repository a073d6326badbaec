//! The cases of calls on nets, states and events.

use crate::random::Random;
use crate::{Call, Cases};
use reference::description::{Group, Limit};
use reference::{dense, fresh, read_description, record, write_description, write_state, Edition, Net, State, POOL};

/// More room than any state of the cases needs.
pub const ROOM: u32 = 500;

/// The fresh state of the pool.
const POOL_STATE: [u8; 7] = [0x01, 0x03, 0x00, 0x00, 0x00, 0x01, 0x03];

pub fn add(cases: &mut Cases) {
    pool(cases);
    faulty_states(cases);
    nested(cases);
    filling(cases);
    loose(cases);
    empty_groups(cases);
    depth(cases);
    weights(cases);
    several_limits(cases);
    longest_state(cases);
    refused_descriptions(cases);
    many_shapes(cases);
}

impl Cases {
    /// Recording and judging an event at one state.
    pub fn event(&mut self, label: &str, d: &[u8], s: &[u8], event: u32) {
        self.add(&format!("{label}, record {event}"), d, s, Call::Record, event, ROOM);
        self.add(&format!("{label}, judge {event}"), d, s, Call::Judge, event, ROOM);
    }

    pub fn known(&mut self, label: &str, d: &[u8], s: &[u8]) {
        self.add(&format!("{label}, known"), d, s, Call::Known, 0, 0);
    }

    /// Events one after the other from fresh, judged and recorded, held ones too.
    pub fn course(&mut self, label: &str, d: &[u8], events: &[u32]) {
        self.add(&format!("{label}, fresh"), d, &[], Call::Fresh, 0, ROOM);
        let net = read_description(d).unwrap();
        let mut state = fresh(&net);
        self.known(label, d, &write_state(&net, &state));
        for &event in events {
            self.event(label, d, &write_state(&net, &state), event);
            if let Ok(next) = record(&net, &state, event) {
                state = next;
            }
            self.known(label, d, &write_state(&net, &state));
        }
    }
}

/// The description of a net; groups are numbered in the order of their marks, so that the same net is read.
fn described(net: &Net) -> Vec<u8> {
    let bytes = write_description(net);
    assert_eq!(read_description(&bytes).as_ref(), Ok(net));
    bytes
}

/// An arc: a place, what is taken from it and what is given to it.
type Arc = (usize, u32, u32);

/// The description of places in groups, events by place, and limits.
pub fn net(homes: &[usize], groups: &[(usize, u32)], events: &[&[Arc]], limits: &[(i64, &[(usize, i64)])]) -> Vec<u8> {
    let row = |event: &[Arc], of: fn(&Arc) -> u32| {
        let mut row = vec![0; homes.len()];
        event.iter().for_each(|arc| row[arc.0 - 1] = of(arc));
        row
    };
    let limit = |&(ceiling, terms): &(i64, &[(usize, i64)])| {
        let mut weights = vec![0; homes.len()];
        terms.iter().for_each(|&(p, weight)| weights[p - 1] = weight);
        Limit { ceiling, weights }
    };
    described(&Net {
        homes: homes.to_vec(),
        groups: groups.iter().map(|&(around, count)| Group { around, count }).collect(),
        takes: events.iter().map(|event| row(event, |arc| arc.1)).collect(),
        gives: events.iter().map(|event| row(event, |arc| arc.2)).collect(),
        limits: limits.iter().map(limit).collect(),
    })
}

/// A state in edition 1, fitting or not.
pub fn state(estimates: &[u32], unplaced: &[u32]) -> Vec<u8> {
    dense(&State { edition: Edition::First, estimates: estimates.to_vec(), unplaced: unplaced.to_vec() })
}

/// The pool of three, how much room a call has, and numbers of no event.
fn pool(cases: &mut Cases) {
    cases.course("pool", &POOL, &[1, 1, 2, 1, 1, 2, 2, 3, 2, 3, 3]);
    for room in [0, 6, 7, 8] {
        cases.add(&format!("pool, fresh in {room}"), &POOL, &[], Call::Fresh, 0, room);
        cases.add(&format!("pool, record in {room}"), &POOL, &POOL_STATE, Call::Record, 1, room);
    }
    for event in [0, 3, 4, 64, 4_294_967_295] {
        cases.event("pool, number", &POOL, &POOL_STATE, event);
    }
    // a state that no history gave, and one with other numbers than the counts
    cases.event("pool, given state", &POOL, &state(&[5, 0, 9], &[7]), 2);
}

/// States with every kind of fault.
fn faulty_states(cases: &mut Cases) {
    let mut check = |fault: &str, bytes: &[u8]| {
        for call in [Call::Record, Call::Judge, Call::Known] {
            cases.add(&format!("state with {fault}, call {}", call as u32), &POOL, bytes, call, 1, ROOM);
        }
        cases.older(&format!("state with {fault}, older"), &POOL, bytes, ROOM);
        cases.dense(&format!("state with {fault}, dense"), &POOL, bytes, ROOM);
        cases.sparse(&format!("state with {fault}, sparse"), &POOL, bytes, ROOM);
    };
    check("edition 0", &[0x00, 0x03, 0x00, 0x00, 0x00, 0x01, 0x03]);
    check("edition 2", &[0x02, 0x03, 0x00, 0x00, 0x00, 0x01, 0x03]);
    check("edition 3", &[0x03, 0x03, 0x00, 0x00, 0x00, 0x01, 0x03]);
    check("two places", &[0x01, 0x02, 0x00, 0x00, 0x01, 0x03]);
    check("four places", &state(&[0, 0, 0, 0], &[3]));
    check("no group", &state(&[0, 0, 0], &[]));
    check("two groups", &state(&[0, 0, 0], &[3, 0]));
    for n in [65_535, 65_536, 16_777_215, 16_777_216] {
        check(&format!("estimate {n}"), &state(&[n, 0, 0], &[3]));
        check(&format!("unplaced {n}"), &state(&[0, 0, 0], &[n]));
    }
    check("a longer form", &[0x01, 0x03, 0x80, 0x00, 0x00, 0x00, 0x01, 0x03]);
    check("a byte more", &[0x01, 0x03, 0x00, 0x00, 0x00, 0x01, 0x03, 0x00]);
    for length in 0..POOL_STATE.len() {
        check(&format!("{length} bytes"), &POOL_STATE[..length]);
    }
}

/// "taking 2 from place 1 is impossible, though 5 less 2 is 3"; each group has a second place, so that its tokens are unplaced.
fn nested(cases: &mut Cases) {
    let nested = net(
        &[1, 2, 1, 2],
        &[(0, 5), (1, 4)],
        &[&[(1, 2, 0)], &[(1, 1, 0)], &[(2, 4, 0)], &[(2, 5, 0)], &[(1, 1, 0), (2, 4, 0)]],
        &[(3, &[(1, 1), (2, 1)])],
    );
    cases.course("nested", &nested, &[1, 4, 5, 2, 3]);
    cases.course("nested, one by one", &nested, &[2, 3, 1]);
    for (seen, unplaced) in [([0, 0], [5, 6]), ([0, 0], [4, 4]), ([1, 4], [0, 0]), ([0, 0], [0, 0])] {
        cases.event(&format!("nested at {unplaced:?}"), &nested, &state(&[seen[0], seen[1], 0, 0], &unplaced), 2);
    }
}

/// Estimates that come to 65,535 and pass it, and that come to 16,777,215 and then out of range.
fn filling(cases: &mut Cases) {
    for full in [65_535, 16_777_215] {
        let events: [&[Arc]; 3] = [&[(1, 0, 255)], &[(1, 0, 1)], &[(2, 1, 255)]];
        let filling = net(&[1, 0], &[(0, 3)], &events, &[(i64::from(full), &[(1, 1)])]);
        for estimate in [full - 256, full - 255, full - 254, full - 1, full] {
            for event in 1..=3 {
                cases.event(&format!("filling at {estimate}"), &filling, &state(&[estimate, estimate], &[3]), event);
            }
        }
    }
}

/// No group: every place is loose.
fn loose(cases: &mut Cases) {
    let loose = net(
        &[0, 0],
        &[],
        &[&[(1, 255, 0), (2, 0, 1)], &[(1, 0, 1)], &[(2, 1, 0)]],
        &[(10, &[(1, -1)]), (0, &[(2, 1)]), (-5, &[(1, -2), (2, -1)])],
    );
    cases.course("loose", &loose, &[1, 2, 3, 3]);
    for estimate in [65_535, 16_777_215] {
        cases.event(&format!("loose at {estimate}"), &loose, &state(&[9, estimate], &[]), 1);
    }
}

fn empty_groups(cases: &mut Cases) {
    let empty = net(
        &[2, 0, 4, 2, 4],
        &[(0, 7), (1, 7), (0, 0), (0, 2)],
        &[&[(1, 3, 1)], &[(3, 2, 0)]],
        &[(9, &[(1, 2), (3, -1)])],
    );
    cases.course("empty groups", &empty, &[1, 2, 1, 1]);
    cases.event("a remainder without place", &empty, &state(&[0; 5], &[7, 6, 0, 2]), 1);
    cases.event("a remainder in an empty group", &empty, &state(&[0; 5], &[7, 7, 1, 2]), 1);
}

fn depth(cases: &mut Cases) {
    let groups: Vec<(usize, u32)> = (0..8).map(|i| (i, 8 - i as u32)).collect();
    let deep = net(
        &[1, 2, 3, 4, 5, 6, 7, 8, 1, 2, 3, 4, 5, 6, 7, 8],
        &groups,
        &[&[(8, 1, 0)], &[(1, 1, 0)], &[(1, 1, 0), (4, 1, 0), (8, 1, 0)], &[(2, 2, 0)]],
        &[(3, &[(8, 5), (1, -1)])],
    );
    cases.course("depth 8", &deep, &[4, 1, 2, 3, 1]);
}

/// Judging: the estimate alone, the heaviest weight below 0, a ceiling that is passed already.
fn weights(cases: &mut Cases) {
    let weights = net(
        &[1, 1, 2, 2],
        &[(0, 6), (0, 4)],
        &[&[(1, 1, 0), (2, 0, 1)], &[(2, 1, 0), (1, 0, 1)], &[(3, 1, 2)], &[(4, 2, 0)], &[]],
        &[
            (5, &[(1, 1), (2, 2)]),
            (-9, &[(3, -3), (4, -2)]),
            (0, &[(1, 1), (2, 1), (3, 1), (4, 1)]),
            (-1_000_000_000, &[(1, 1000)]),
            (1_000_000_000, &[(4, -1000)]),
        ],
    );
    for (estimates, unplaced) in [
        ([0, 0, 0, 0], [6, 4]),
        ([3, 0, 0, 2], [3, 2]),
        ([0, 3, 4, 0], [0, 0]),
        ([6, 0, 1, 0], [0, 3]),
        ([65_535, 9, 9, 9], [65_535, 65_535]),
        ([16_777_215, 9, 9, 9], [16_777_215, 16_777_215]),
    ] {
        for event in 1..=5 {
            cases.event(&format!("weights at {estimates:?} {unplaced:?}"), &weights, &state(&estimates, &unplaced), event);
        }
    }
}

/// 16 limits on 16 places without tokens, to each of which an event gives one: each limit holds alone, and over others.
fn several_limits(cases: &mut Cases) {
    let net = |weight: fn(usize, usize) -> i64| {
        let limit = |l: usize| Limit { ceiling: 0, weights: (1..=16).map(|p| weight(l, p)).collect() };
        described(&Net {
            homes: vec![1; 16],
            groups: vec![Group { around: 0, count: 0 }],
            takes: vec![vec![0; 16]; 16],
            gives: (1..=16).map(|e| (1..=16).map(|p| u32::from(p == e)).collect()).collect(),
            limits: (1..=16).map(limit).collect(),
        })
    };
    let empty = state(&[0; 16], &[0]);
    let alone = net(|l, p| i64::from(l == p));
    let over_others = net(|l, p| if l <= p { l as i64 } else { -1 });
    for event in 1..=16 {
        cases.add(&format!("limit {event} alone, judge"), &alone, &empty, Call::Judge, event, 0);
        cases.add(&format!("limit {event} over others, judge"), &over_others, &empty, Call::Judge, event, 0);
    }
    let (fours, all) = (net(|l, p| i64::from(p == l.div_ceil(4))), net(|_, p| i64::from(p == 1)));
    for event in 1..=5 {
        cases.add(&format!("four equal limits, judge {event}"), &fours, &empty, Call::Judge, event, 0);
    }
    for event in [1, 2] {
        cases.add(&format!("equal limits, judge {event}"), &all, &empty, Call::Judge, event, 0);
    }
}

/// 64 places, two in each of 32 groups of 16,777,215; an event without arcs, and one that takes 255 from the last place.
pub fn longest() -> Vec<u8> {
    let homes: Vec<usize> = (0..64).map(|p| 1 + p / 2).collect();
    net(&homes, &[(0, 16_777_215); 32], &[&[], &[(64, 255, 0)]], &[])
}

/// The longest state, 387 bytes; it is a byte shorter where an estimate falls below 2,097,152.
fn longest_state(cases: &mut Cases) {
    let s = |last: u32| state(&[&[16_777_215; 63][..], &[last]].concat(), &[16_777_215; 32]);
    assert_eq!(s(16_777_215).len(), 387);
    for (room, event, last) in [(387, 1, 16_777_215), (386, 1, 16_777_215), (386, 2, 2_097_152), (387, 2, 2_097_407)] {
        let label = format!("the longest state with {last}, record {event} in {room}");
        cases.add(&label, &longest(), &s(last), Call::Record, event, room);
    }
    cases.add("the longest state, known", &longest(), &s(16_777_215), Call::Known, 0, 0);
}

/// A description that is refused, with a state and an event that would be too.
fn refused_descriptions(cases: &mut Cases) {
    let group_beside = [0x02, 0x01, 0x03, 0x03, 0x00, 0x01, 0x00, 0x02, 0x00, 0x03, 0x01, 0x01, 0x00];
    for (refusal, d) in [
        (1, POOL[..38].to_vec()),
        (2, [&[0x02], &POOL[1..]].concat()),
        (3, [&[0x01, 0x41], &POOL[2..]].concat()),
        (4, [&POOL[..38], &[0x80, 0x20]].concat()),
        (5, [&POOL[..38], &[0x00]].concat()),
        (6, [&POOL[..7], &[0x02, 0x00, 0x01, 0x00, 0x02], &POOL[14..]].concat()),
        (7, [&POOL[..4], &group_beside, &POOL[14..]].concat()),
        (8, [&POOL[..], &[0x00]].concat()),
    ] {
        for call in [Call::Fresh, Call::Record, Call::Judge, Call::Known] {
            cases.add(&format!("description refused {refusal}, call {}", call as u32), &d, &[0x07], call, 0, 0);
        }
        cases.count(&format!("description refused {refusal}, count"), &d, &[0x07], &[], 16_777_216, [0, 0]);
        cases.older(&format!("description refused {refusal}, older"), &d, &[0x07], 0);
        cases.dense(&format!("description refused {refusal}, dense"), &d, &[0x07], 0);
        cases.sparse(&format!("description refused {refusal}, sparse"), &d, &[0x07], 0);
    }
}

/// Nets of many shapes, each with its fresh state and a state that no list of calls gave, which is also written in edition 2.
fn many_shapes(cases: &mut Cases) {
    let mut random = Random(20_261_115);
    for number in 0..60 {
        let (places, events, groups) = (1 + random.below(9), 1 + random.below(4), random.below(6));
        let limits = random.below(4);
        let (net, state) = random.net_and_state(places, events, groups, limits);
        let (label, d, s) = (format!("net {number}"), described(&net), write_state(&net, &state));
        cases.add(&format!("{label}, fresh"), &d, &[], Call::Fresh, 0, ROOM);
        for event in 1..=events {
            cases.event(&label, &d, &s, event);
        }
        cases.known(&label, &d, &s);
        cases.sparse(&format!("{label}, sparse"), &d, &s, ROOM);
    }
}
