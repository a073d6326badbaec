//! The nets that are measured, each with a state and an event.

use crate::{plain, LONGEST, ROOM};
use reference::description::{Group, Limit, Net};
use reference::{Edition, State, BOUND, OLDER_BOUND, POOL};

/// Numbers without a pattern, the same in every run (xorshift).
pub struct Numbers(pub u64);

impl Numbers {
    pub fn next(&mut self) -> u64 {
        self.0 ^= self.0 << 13;
        self.0 ^= self.0 >> 7;
        self.0 ^= self.0 << 17;
        self.0
    }

    pub fn within(&mut self, low: u32, high: u32) -> u32 {
        low + (self.next() % u64::from(high - low + 1)) as u32
    }
}

/// A description, a state that fits it, and an event that is possible there, raises every limit's sum and is allowed all the
/// same: judging it has the most to do. Where places are loose, a head count of them.
#[derive(Clone)]
pub struct Case {
    pub name: &'static str,
    pub d: Vec<u8>,
    pub s: Vec<u8>,
    pub event: u32,
    pub places: Vec<u8>,
    pub tokens: u32,
}

/// A description, and events that can be gone through round after round: each round leaves the state as the one before it did.
pub struct Round {
    pub name: &'static str,
    pub d: Vec<u8>,
    pub events: Vec<u32>,
}

/// How a net is made. Groups stand in chains as deep as said, with the places dealt out among them.
#[derive(Clone, Copy)]
struct Shape {
    name: &'static str,
    places: usize,
    events: usize,
    chains: usize,
    depth: usize,
    limits: usize,
    /// Of how many consecutive places each event has an arc, and each limit a term.
    arcs: usize,
    terms: usize,
    /// The count of an outermost group, and by how much that of a group inside is less.
    count: u32,
    share: u32,
    takes: (u32, u32),
    gives: (u32, u32),
    weights: (u32, u32),
    ceiling: i64,
    /// Each second event undoes the one before it.
    paired: bool,
    /// The events 1 to this one have been recorded; the next one is asked for.
    recorded: u32,
}

const MIDDLE: Shape = Shape {
    name: "middle: 16 places, 16 events, 6 groups at depth 3, 4 limits",
    places: 16,
    events: 16,
    chains: 2,
    depth: 3,
    limits: 4,
    arcs: 4,
    terms: 8,
    count: 60,
    share: 20,
    takes: (0, 3),
    gives: (1, 3),
    weights: (1, 20),
    ceiling: 100_000,
    paired: false,
    recorded: 3,
};

const LARGEST: Shape = Shape {
    name: "largest: 64 places, 64 events, 32 groups at depth 8, 16 limits, dense",
    places: 64,
    events: 64,
    chains: 4,
    depth: 8,
    limits: 16,
    arcs: 64,
    terms: 64,
    count: 60_000,
    share: 1_000,
    takes: (128, 255),
    gives: (128, 255),
    weights: (65, 1_000),
    ceiling: 1_000_000_000,
    paired: false,
    recorded: 3,
};

const ONE_BYTE: Shape = Shape {
    name: "the same, numbers of one byte (ceilings aside)",
    count: 120,
    share: 10,
    takes: (0, 2),
    gives: (1, 127),
    weights: (1, 63),
    ..LARGEST
};

const ONE_PLACE: Shape = Shape {
    name: "one-place groups: 32 places, 16 events, 32 groups at depth 8, 4 limits",
    places: 32,
    chains: 4,
    depth: 8,
    count: 180,
    ..MIDDLE
};

fn net(shape: &Shape) -> Net {
    let mut numbers = Numbers(0x9E37_79B9_7F4A_7C15);
    let groups = shape.chains * shape.depth;
    let mut net = Net {
        homes: (0..shape.places).map(|p| 1 + p % groups).collect(),
        groups: (0..groups)
            .map(|g| Group {
                around: if g % shape.depth == 0 { 0 } else { g },
                count: shape.count - shape.share * (g % shape.depth) as u32,
            })
            .collect(),
        takes: Vec::new(),
        gives: Vec::new(),
        limits: Vec::new(),
    };
    for e in 0..shape.events {
        let (mut takes, mut gives) = (vec![0; shape.places], vec![0; shape.places]);
        for i in 0..shape.arcs {
            let p = (e + i) % shape.places;
            takes[p] = numbers.within(shape.takes.0, shape.takes.1);
            gives[p] = numbers.within(shape.gives.0, shape.gives.1);
        }
        if shape.paired && e % 2 == 1 {
            (takes, gives) = (net.gives[e - 1].clone(), net.takes[e - 1].clone());
        }
        net.takes.push(takes);
        net.gives.push(gives);
    }
    let asked = shape.recorded as usize;
    for _ in 0..shape.limits {
        let mut weights = vec![0i64; shape.places];
        for i in 0..shape.terms {
            let weight = i64::from(numbers.within(shape.weights.0, shape.weights.1));
            weights[(asked + i) % shape.places] = if numbers.next() % 2 == 0 { weight } else { -weight };
        }
        let change: i64 =
            (0..shape.places).map(|p| weights[p] * (i64::from(net.gives[asked][p]) - i64::from(net.takes[asked][p]))).sum();
        assert!(change != 0);
        if change < 0 {
            weights.iter_mut().for_each(|weight| *weight = -*weight);
        }
        net.limits.push(Limit { ceiling: shape.ceiling, weights });
    }
    net
}

/// The state after the events have been recorded in turn, from fresh.
fn state(d: &[u8], events: &[u32]) -> Vec<u8> {
    let mut s = vec![0; ROOM];
    let size = plain::fresh(d, &mut s);
    s.truncate(usize::try_from(size).unwrap());
    for &event in events {
        let mut after = vec![0; ROOM];
        let size = plain::record(d, &s, event, &mut after);
        after.truncate(usize::try_from(size).unwrap());
        s = after;
    }
    s
}

fn case(shape: &Shape) -> Case {
    let d = reference::write_description(&net(shape));
    let recorded: Vec<u32> = (1..=shape.recorded).collect();
    Case { name: shape.name, s: state(&d, &recorded), d, event: shape.recorded + 1, places: Vec::new(), tokens: 0 }
}

/// The case without its last group, which has no other inside: its places are loose, and a head count makes them a group again.
fn loosen(case: Case) -> Case {
    let mut net = reference::read_description(&case.d).unwrap();
    let last = net.groups.len();
    let group = net.groups.pop().unwrap();
    let places: Vec<u8> = (1..).zip(&net.homes).filter(|(_, &home)| home == last).map(|(place, _)| place).collect();
    net.homes.iter_mut().filter(|home| **home == last).for_each(|home| *home = 0);
    let d = reference::write_description(&net);
    let recorded: Vec<u32> = (1..case.event).collect();
    let s = state(&d, &recorded);
    let estimates = reference::read_state(&net, &s).unwrap().estimates;
    let tokens = group.count + places.iter().map(|&place| estimates[usize::from(place) - 1]).sum::<u32>();
    Case { d, s, places, tokens, ..case }
}

/// The case with every ceiling below 0, as far as it was above: the event is held, by every limit. The description is as long.
fn hold(case: Case) -> Case {
    let mut net = reference::read_description(&case.d).unwrap();
    net.limits.iter_mut().for_each(|limit| limit.ceiling = -limit.ceiling);
    let d = reference::write_description(&net);
    assert_eq!(d.len(), case.d.len());
    assert_eq!(reference::holding(&net, &reference::read_state(&net, &case.s).unwrap(), case.event).unwrap().len(), net.limits.len());
    Case { d, ..case }
}

/// The case with its state in edition 2.
pub fn sparse(case: &Case) -> Case {
    let mut s = vec![0; ROOM];
    let size = plain::sparse(&case.d, &case.s, &mut s);
    s.truncate(usize::try_from(size).unwrap());
    Case { s, ..case.clone() }
}

/// The case with its fresh state, but for one token at each 16th place.
fn mostly_empty(name: &'static str, case: &Case) -> Case {
    let net = reference::read_description(&case.d).unwrap();
    let mut state = reference::fresh(&net);
    state.estimates.iter_mut().step_by(16).for_each(|estimate| *estimate = 1);
    Case { name, s: reference::write_state(&net, &state), ..case.clone() }
}

/// A small net without a pattern, with loose places, uneven nesting and low ceilings, and a state of either edition, which fits it
/// unless its unplaced numbers pass the bound; for comparing.
pub fn small(numbers: &mut Numbers) -> (Vec<u8>, Vec<u8>) {
    let places = numbers.within(1, 6) as usize;
    let mut groups: Vec<Group> = Vec::new();
    for _ in 0..numbers.within(0, 5) {
        // The group around is the one before, or one around that, or none.
        let mut around = groups.len();
        while around != 0 && numbers.next() % 2 == 0 {
            around = groups[around - 1].around;
        }
        groups.push(Group { around, count: 0 });
    }
    let homes: Vec<usize> = (0..places).map(|_| numbers.within(0, groups.len() as u32) as usize).collect();
    let remainders = [3, 3, 3, OLDER_BOUND, BOUND][numbers.within(0, 4) as usize];
    let mut gathered = |high: u32| {
        let mut whole: Vec<u32> =
            (1..=groups.len()).map(|g| if homes.contains(&g) { numbers.within(0, high) } else { 0 }).collect();
        for g in (1..=groups.len()).rev().filter(|&g| groups[g - 1].around != 0) {
            whole[groups[g - 1].around - 1] += whole[g - 1];
        }
        whole
    };
    let (counts, mut unplaced) = (gathered(3), gathered(remainders));
    groups.iter_mut().zip(counts).for_each(|(group, count)| group.count = count);
    let mut row = |high: u32| -> Vec<u32> {
        (0..places).map(|_| if numbers.next() % 2 == 0 { 0 } else { numbers.within(0, high) }).collect()
    };
    let rows: Vec<_> = (0..3).map(|_| (row(2), row(2))).collect();
    let mut estimates = row(3);
    let limits = (0..3)
        .map(|_| Limit {
            weights: (0..places).map(|_| i64::from(numbers.within(0, 6)) - 3).collect(),
            ceiling: i64::from(numbers.within(0, 30)) - 10,
        })
        .collect();
    if numbers.next() % 4 == 0 {
        estimates[0] = [OLDER_BOUND, OLDER_BOUND + 1, BOUND][numbers.within(0, 2) as usize];
    }
    // as many groups as can be, without place or token
    if numbers.next() % 8 == 0 {
        groups.resize(32, Group { around: 0, count: 0 });
        unplaced.resize(32, 0);
    }
    let (takes, gives) = rows.into_iter().unzip();
    let net = Net { homes, groups, takes, gives, limits };
    let edition = if numbers.next() % 2 == 0 { Edition::First } else { Edition::Second };
    let state = State { edition, estimates, unplaced };
    (reference::write_description(&net), reference::write_state(&net, &state))
}

/// The largest net with more and more of its events.
pub fn growing() -> Vec<Case> {
    [4, 8, 16, 32, 64].map(|events| case(&Shape { events, ..LARGEST })).into()
}

pub fn all() -> Vec<Case> {
    let (d, s) = (POOL.to_vec(), state(&POOL, &[1, 1]));
    let mut all = vec![Case { name: "the pool of three", d, s, event: 2, places: Vec::new(), tokens: 0 }];
    all.extend([&MIDDLE, &LARGEST, &ONE_BYTE, &ONE_PLACE].map(case));
    assert_eq!(all[2].d.len() + 32, LONGEST, "only its counts are not at their longest, so that older observers read its state");
    assert_allowed(&all);
    all
}

fn assert_allowed(cases: &[Case]) {
    for case in cases {
        assert_eq!(plain::judge(&case.d, &case.s, case.event), 0, "{}: every limit is weighed", case.name);
    }
}

/// The same nets for an event that is held.
pub fn held() -> Vec<Case> {
    all().into_iter().map(hold).collect()
}

/// The pool of three, the middle and the largest net, the last two also with a state that is mostly empty; all in edition 1, and all in
/// edition 2.
pub fn editions() -> [Vec<Case>; 2] {
    let [pool, middle, largest, ..] = <[Case; 5]>::try_from(all()).ok().unwrap();
    let middle_empty = mostly_empty("middle, mostly empty", &middle);
    let largest_empty = mostly_empty("largest, mostly empty", &largest);
    let first = vec![pool, middle, middle_empty, largest, largest_empty];
    assert_allowed(&first);
    let second = first.iter().map(sparse).collect();
    [first, second]
}

/// The same nets for head counts, each with the places of its last group loose; and one that is loose places and little else, of
/// which a head count moves the most.
pub fn loosened() -> Vec<Case> {
    let mut loosened: Vec<Case> = all().into_iter().map(loosen).collect();
    assert_eq!(loosened[2].d.len() + 5 + 32, LONGEST, "a head count adds the group again, of which the count has 3 bytes");
    let row = || vec![vec![0; 64]];
    let d = reference::write_description(&Net { homes: vec![0; 64], groups: vec![], takes: row(), gives: row(), limits: vec![] });
    let (s, places) = (state(&d, &[]), (1..=64).rev().collect());
    loosened.push(Case { name: "64 loose places, an event without arcs", d, s, event: 1, places, tokens: 1_000 });
    loosened
}

/// The rounds of the journal: the list of the scope document and then the tokens back to place 1; and all events of the middle
/// and the largest net, paired, and one number that is none of theirs.
pub fn rounds() -> [Round; 3] {
    let round = |shape: Shape| Round {
        name: shape.name,
        d: reference::write_description(&net(&Shape { paired: true, ..shape })),
        events: (1..=shape.events as u32 + 1).collect(),
    };
    let pool = Round { name: "the pool of three", d: POOL.to_vec(), events: vec![1, 1, 2, 1, 1, 2, 2, 3, 3, 3] };
    [pool, round(MIDDLE), round(LARGEST)]
}
