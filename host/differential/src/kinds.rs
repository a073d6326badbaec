//! What the cases meet.

use crate::head_counts::estimated;
use reference::number::Bytes;
use reference::{count, dense, holding, known, read_description_within, read_state_within, record, sparse};
use reference::{Edition, Net, State, BOUND, OLDER_BOUND};
use seeded::met::Met;
use seeded::nets::{alone_with, deepest, depths, has_one_place, settled, EDGES};
use std::fmt;

/// A kind, and what is of it: a call, one of its outputs, a net, a description or a state; and when, if that matters.
#[derive(Clone, Copy, PartialEq, Eq, Hash)]
pub struct Of {
    when: &'static str,
    what: &'static str,
    kind: Kind,
}

pub fn of(what: &'static str, kind: Kind) -> Of {
    Of { when: "", what, kind }
}

impl Of {
    /// The same when something is so: one of the words below.
    pub fn when(self, when: &'static str) -> Of {
        Of { when, ..self }
    }
}

impl fmt::Display for Of {
    fn fmt(&self, f: &mut fmt::Formatter) -> fmt::Result {
        write!(f, "{}{} {}", self.when, self.what, self.kind)
    }
}

/// A head count was accepted before.
pub const AFTER_COUNT: &str = "after a count, ";

/// The call that was accepted last is a head count of one place.
pub const AFTER_ONE: &str = "after a count of one place, ";

/// The state is the fresh one.
pub const AT_FRESH: &str = "at a fresh state, ";

/// The state has tokens unplaced in a group with one direct place; no list of calls from fresh leads there.
pub const AT_OPEN: &str = "at a state open in a group with one place, ";

/// The state is saved in this edition.
pub fn in_edition(edition: Edition) -> &'static str {
    match edition {
        Edition::First => "in edition 1, ",
        Edition::Second => "in edition 2, ",
    }
}

/// The same of the bytes of a state, read or not.
pub fn in_edition_of(state: &[u8]) -> Option<&'static str> {
    match Bytes::new(state).number() {
        Ok(1) => Some(in_edition(Edition::First)),
        Ok(2) => Some(in_edition(Edition::Second)),
        _ => None,
    }
}

/// What is so of a net and a state that were read.
pub fn whens(net: &Net, state: &State) -> Vec<&'static str> {
    let is_fresh = dense(state) == dense(&reference::fresh(net));
    let is_open = !alone_with(net, &state.unplaced).is_empty();
    let whens = [(AT_FRESH, is_fresh), (AT_OPEN, is_open)];
    whens.into_iter().filter(|when| when.1).map(|when| when.0).collect()
}

/// One kind of answer, of room for what is to be written, of head count, of state, or of size.
#[derive(Clone, Copy, PartialEq, Eq, Hash)]
pub enum Kind {
    Wrote,
    Allow,
    Hold(u32),
    Yes,
    No,
    Refused(u32),
    RefusedInNoRoom(u32),
    Room(Room),
    With(&'static str),
    Size(usize, &'static str),
}

/// The room beside the length of what is to be written.
#[derive(Clone, Copy, PartialEq, Eq, Hash)]
pub enum Room {
    Zero,
    Short,
    OneShort,
    Exact,
    Larger,
}

impl Room {
    pub fn of(room: usize, length: usize) -> Room {
        match room {
            0 => Room::Zero,
            _ if room > length => Room::Larger,
            _ if room == length => Room::Exact,
            _ if room + 1 == length => Room::OneShort,
            _ => Room::Short,
        }
    }
}

impl fmt::Display for Kind {
    fn fmt(&self, f: &mut fmt::Formatter) -> fmt::Result {
        match self {
            Kind::Wrote => write!(f, "wrote"),
            Kind::Allow => write!(f, "allow"),
            Kind::Hold(limit) => write!(f, "hold {limit}"),
            Kind::Yes => write!(f, "yes"),
            Kind::No => write!(f, "no"),
            Kind::Refused(refusal) => write!(f, "refused {refusal}"),
            Kind::RefusedInNoRoom(refusal) => write!(f, "refused {refusal} in room 0"),
            Kind::Room(Room::Zero) => write!(f, "room 0"),
            Kind::Room(Room::Short) => write!(f, "room short by more"),
            Kind::Room(Room::OneShort) => write!(f, "room one short"),
            Kind::Room(Room::Exact) => write!(f, "room exactly enough"),
            Kind::Room(Room::Larger) => write!(f, "room larger"),
            Kind::With(what) => write!(f, "with {what}"),
            Kind::Size(size, of) => write!(f, "{size} {of}"),
        }
    }
}

/// What is wrong in a list of places: one is 0, above P, in a group, or there twice.
fn faults(net: &Net, places: &[u8]) -> [bool; 4] {
    let home = |place: u8| net.homes.get(usize::from(place).checked_sub(1)?);
    [
        places.contains(&0),
        places.iter().any(|&place| usize::from(place) > net.places()),
        places.iter().any(|&place| home(place).is_some_and(|&home| home != 0)),
        (1..places.len()).any(|i| places[..i].contains(&places[i])),
    ]
}

/// Is a list of places of a kind?
type OfList = fn(&Net, &[u8]) -> bool;

pub const LISTS: [(&str, OfList); 8] = [
    ("no place", |_, places| places.is_empty()),
    ("place 0 alone at fault", |net, places| faults(net, places) == [true, false, false, false]),
    ("a place above P alone at fault", |net, places| faults(net, places) == [false, true, false, false]),
    ("a place in a group alone at fault", |net, places| faults(net, places) == [false, false, true, false]),
    ("a place twice alone at fault", |net, places| faults(net, places) == [false, false, false, true]),
    ("more than 64 places", |_, places| places.len() > 64),
    ("loose places rising", |net, places| places.len() > 1 && faults(net, places) == [false; 4] && places.is_sorted()),
    ("loose places in another order", |net, places| faults(net, places) == [false; 4] && !places.is_sorted()),
];

/// Is a number of tokens of a kind, beside what the estimates add up to?
type OfTokens = fn(u32, u32) -> bool;

pub const TOKENS: [(&str, OfTokens); 9] = [
    ("one token less than the estimates", |estimated, n| estimated <= BOUND && estimated.checked_sub(n) == Some(1)),
    ("as many tokens as the estimates", |estimated, n| n == estimated && n <= BOUND),
    ("tokens between", |estimated, n| estimated < n && n < BOUND),
    ("65,535 tokens", |estimated, n| estimated < n && n == 65_535),
    ("65,536 tokens", |estimated, n| estimated < n && n == 65_536),
    ("16,777,215 tokens", |estimated, n| estimated < n && n == 16_777_215),
    ("16,777,216 tokens", |estimated, n| estimated < n && n == 16_777_216),
    ("4,294,967,295 tokens", |_, n| n == u32::MAX),
    ("estimates above 16,777,215", |estimated, n| estimated > 16_777_215 && n <= 16_777_215),
];

/// Head counts of one place that are accepted.
pub const ONE_MORE: &str = "one place and more tokens than its estimate";
pub const ONE_AS_MANY: &str = "one place and as many tokens as its estimate";
pub const ONE_BESIDE_OPEN: &str = "one place, beside a group with one place that is left open";

fn too_large(n: &u32) -> bool {
    *n > OLDER_BOUND
}

/// Is a state of a kind that matters to older observers, or in edition 2?
type OfState = fn(&Net, &State) -> bool;

pub const OLDER: [(&str, OfState); 7] = [
    ("estimates alone too large", |_, s| s.estimates.iter().any(too_large) && !s.unplaced.iter().any(too_large)),
    ("unplaced numbers alone too large", |_, s| !s.estimates.iter().any(too_large) && s.unplaced.iter().any(too_large)),
    ("both too large", |_, s| s.estimates.iter().any(too_large) && s.unplaced.iter().any(too_large)),
    ("an unplaced number too large, but no own remainder and no estimate", |net, s| {
        let own = (1..=net.groups.len()).map(|g| net.own(&s.unplaced, g));
        s.unplaced.iter().any(too_large) && !s.estimates.iter().any(too_large) && own.max() <= Some(OLDER_BOUND.into())
    }),
    ("65,535 as the largest number", |_, s| s.estimates.iter().chain(&s.unplaced).max() == Some(&65_535)),
    ("65,536 as the largest number", |_, s| s.estimates.iter().chain(&s.unplaced).max() == Some(&65_536)),
    ("a count too large, but no number of the state", |net, s| {
        net.groups.iter().any(|group| too_large(&group.count)) && !s.estimates.iter().chain(&s.unplaced).any(too_large)
    }),
];

pub const SPARSE: [(&str, OfState); 6] = [
    ("no pair, of several places", |net, s| net.places() > 1 && s.estimates.iter().all(|&n| n == 0)),
    ("a pair for each of several places", |net, s| net.places() > 1 && !s.estimates.contains(&0)),
    ("a pair at the last of several places alone", |_, s| {
        s.estimates.len() > 1 && s.estimates.iter().position(|&n| n != 0) == Some(s.estimates.len() - 1)
    }),
    ("an own remainder that is not the unplaced number", |net, s| (1..=net.groups.len()).any(|g| has_unplaced_inside(net, s, g))),
    ("fewer bytes than in edition 1", |net, s| sparse(net, s).len() < dense(s).len()),
    ("more bytes than in edition 1", |net, s| sparse(net, s).len() > dense(s).len()),
];

fn has_unplaced_inside(net: &Net, state: &State, g: usize) -> bool {
    net.own(&state.unplaced, g) < state.unplaced[g - 1].into()
}

/// Which of the two rooms of a head count are too short.
pub const SHORT: [(&str, [bool; 2]); 3] = [
    ("room short for the description alone", [true, false]),
    ("room short for the state alone", [false, true]),
    ("room short for both", [true, true]),
];

/// Counts what a head count is asked for, on a net and a state that were read.
pub fn count_head_count(net: &Net, state: &State, places: &[u8], n: u32, met: &mut Met<Of>) {
    for (name, _) in LISTS.iter().filter(|(_, is)| is(net, places)) {
        met.count(of("count", Kind::With(name)));
    }
    if places.is_empty() || faults(net, places) != [false; 4] {
        return;
    }
    for (name, _) in TOKENS.iter().filter(|(_, is)| is(estimated(state, places), n)) {
        met.count(of("count", Kind::With(name)));
    }
    met.count(of("count", Kind::Size(net.groups.len(), "groups")));
    if let (&[place], Ok((net, after))) = (places, count(net, state, places, n)) {
        let more = n > state.estimates[usize::from(place) - 1];
        met.count(of("count", Kind::With(if more { ONE_MORE } else { ONE_AS_MANY })));
        if !alone_with(&net, &after.unplaced).is_empty() {
            met.count(of("count", Kind::With(ONE_BESIDE_OPEN)));
        }
    }
}

/// Counts what is asked for older observers, of a state that was read.
pub fn count_older(net: &Net, state: &State, met: &mut Met<Of>) {
    for (name, _) in OLDER.iter().filter(|(_, is)| is(net, state)) {
        met.count(of("older", Kind::With(name)));
    }
}

/// Counts what edition 2 has to hold, of a state that was read.
pub fn count_sparse(net: &Net, state: &State, met: &mut Met<Of>) {
    for (name, _) in SPARSE.iter().filter(|(_, is)| is(net, state)) {
        met.count(of("sparse", Kind::With(name)));
    }
}

/// Is a net of a kind, beside its fresh state?
type OfFresh = fn(&Net, &State) -> bool;

pub const FRESH: [(&str, OfFresh); 7] = [
    ("tokens, but none at a place", |net, s| {
        net.groups.iter().any(|group| group.count > 0) && s.estimates.iter().all(|&n| n == 0)
    }),
    ("tokens, all of them known", |net, s| known(net, s) && s.estimates.iter().any(|&n| n > 0)),
    ("16,777,215 tokens at a place", |_, s| s.estimates.contains(&16_777_215)),
    ("a group with one place and no token", |net, _| {
        (1..=net.groups.len()).any(|g| has_one_place(net, g) && net.groups[g - 1].count == 0)
    }),
    ("tokens at the place of a group, and unplaced ones inside it", |net, s| {
        settled(net).iter().any(|&g| s.unplaced[g - 1] > 0)
    }),
    ("tokens at the place of a group, and unplaced ones around it", |net, s| {
        settled(net).iter().map(|&g| net.groups[g - 1].around).any(|around| around != 0 && net.own(&s.unplaced, around) > 0)
    }),
    ("tokens at the places of two groups that lie directly in one", |net, _| {
        let around: Vec<usize> = settled(net).iter().map(|&g| net.groups[g - 1].around).filter(|&around| around != 0).collect();
        (1..around.len()).any(|i| around[..i].contains(&around[i]))
    }),
];

/// How deep a group is whose tokens a fresh state has at its one place.
pub const SETTLED: &str = "fresh with a group that has one place,";

/// Counts what the fresh state of a net is.
pub fn count_fresh(net: &Net, fresh: &State, met: &mut Met<Of>) {
    for (name, _) in FRESH.iter().filter(|(_, is)| is(net, fresh)) {
        met.count(of("fresh", Kind::With(name)));
    }
    let depths = depths(net);
    settled(net).into_iter().for_each(|g| met.count(of(SETTLED, Kind::Size(depths[g], "deep"))));
}

/// Where numbers at the bounds and one past them stand.
pub const COUNT: &str = "a count of";
pub const ESTIMATE: &str = "an estimate of";
pub const UNPLACED: &str = "an unplaced number of";
pub const REMAINDER: &str = "in edition 2 an own remainder of";
pub const SUM: &str = "in edition 2 lower own remainders with a sum of";
pub const AFTER: &str = "after an event an estimate of";

/// An event that is possible.
pub const RAISED_IN_OPEN: &str = "a raise in a group with one place that is open";

/// Counts the numbers at the bounds and one past them among these.
fn count_edges(what: &'static str, found: &[u32], met: &mut Met<Of>) {
    for edge in EDGES.into_iter().filter(|edge| found.contains(edge)) {
        met.count(of(what, Kind::Size(edge as usize, "tokens")));
    }
}

/// The same of a description and a state; where a number is past the bound nothing else is at fault.
pub fn count_edges_of(description: &[u8], state: &[u8], met: &mut Met<Of>) {
    let Ok(net) = read_description_within(description, BOUND + 1) else { return };
    count_edges(COUNT, &net.groups.iter().map(|group| group.count).collect::<Vec<_>>(), met);
    let Ok(state) = read_state_within(&net, state, BOUND + 1) else { return };
    count_edges(ESTIMATE, &state.estimates, met);
    count_edges(UNPLACED, &state.unplaced, met);
    if state.edition == Edition::Second {
        let (sums, alone): (Vec<usize>, Vec<usize>) = (1..=net.groups.len()).partition(|&g| has_unplaced_inside(&net, &state, g));
        for (what, groups) in [(REMAINDER, alone), (SUM, sums)] {
            count_edges(what, &groups.into_iter().map(|g| state.unplaced[g - 1]).collect::<Vec<_>>(), met);
        }
    }
}

/// The same of the estimates that a possible event leaves, in range or not; and counts events that raise in an open group.
pub fn count_after(net: &Net, state: &State, event: u32, met: &mut Met<Of>) {
    if let Ok(_) | Err(12) = record(net, state, event) {
        let e = event as usize - 1;
        let after = |p: usize| state.estimates[p].saturating_sub(net.takes[e][p]) + net.gives[e][p];
        count_edges(AFTER, &(0..net.places()).map(after).collect::<Vec<_>>(), met);
        let is_raised = |p: usize| net.takes[e][p] > state.estimates[p];
        if alone_with(net, &state.unplaced).iter().any(|&g| (0..net.places()).any(|p| net.homes[p] == g && is_raised(p))) {
            met.count(of("record", Kind::With(RAISED_IN_OPEN)));
        }
    }
}

/// The limit that is named holds the event alone, or is the highest of several.
pub const ALONE: &str = "judge by one limit alone,";
pub const OVER_OTHERS: &str = "judge by the highest of several limits,";

/// Is another limit of a kind, beside the one that is named? The two numbers, whether the other holds too, and whether the two are equal.
type OfOther = fn(u32, u32, bool, bool) -> bool;

pub const OTHERS: [(&str, OfOther); 6] = [
    ("a lower limit that holds and is equal", |other, named, holds, equal| other < named && holds && equal),
    ("a lower limit that holds and is different", |other, named, holds, equal| other < named && holds && !equal),
    ("a lower limit that does not hold", |other, named, holds, _| other < named && !holds),
    ("a higher limit that does not hold", |other, named, holds, _| other > named && !holds),
    ("a limit next below that holds", |other, named, holds, _| other + 1 == named && holds),
    ("limit 1 that holds", |other, named, holds, _| other == 1 && named > 1 && holds),
];

/// Counts which limits hold an event, and beside which others.
pub fn count_holding(net: &Net, state: &State, event: u32, met: &mut Met<Of>) {
    let Ok(holding) = holding(net, state, event) else { return };
    let Some((&named, lower)) = holding.split_last() else { return };
    met.count(of(if lower.is_empty() { ALONE } else { OVER_OTHERS }, Kind::Hold(named)));
    let limit = |number: u32| &net.limits[number as usize - 1];
    for (name, is) in OTHERS {
        let is = |other: u32| is(other, named, holding.contains(&other), limit(other) == limit(named));
        if (1..=net.limits.len() as u32).any(is) {
            met.count(of("judge", Kind::With(name)));
        }
    }
}

/// Counts the sizes of a net that was read.
pub fn count_sizes(net: &Net, met: &mut Met<Of>) {
    met.count(of("net", Kind::Size(net.places(), "places")));
    met.count(of("net", Kind::Size(net.takes.len(), "events")));
    met.count(of("net", Kind::Size(net.groups.len(), "groups")));
    met.count(of("net", Kind::Size(deepest(net), "deep")));
    met.count(of("net", Kind::Size(net.limits.len(), "limits")));
}
