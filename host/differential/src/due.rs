//! What the cases must meet.

use crate::faults;
use crate::kinds::{in_edition, of, Kind, Of, Room, AFTER_COUNT, AFTER_ONE, AT_FRESH, AT_OPEN};
use crate::kinds::{AFTER, ALONE, COUNT, ESTIMATE, FRESH, LISTS, OLDER, ONE_AS_MANY, ONE_BESIDE_OPEN, ONE_MORE, OTHERS};
use crate::kinds::{OVER_OTHERS, RAISED_IN_OPEN, REMAINDER, SETTLED, SHORT, SPARSE, SUM, TOKENS, UNPLACED};
use reference::Edition;
use seeded::nets::EDGES;
use yarrowbeam::{LARGEST_DESCRIPTION, LARGEST_STATE};

/// The length of the largest state in edition 1, and of the largest that is written for older observers.
const LARGEST_DENSE: usize = 387;
const LARGEST_FOR_OLDER: usize = 291;

fn refused(refusals: &'static [u32]) -> impl Iterator<Item = Kind> {
    refusals.iter().copied().map(Kind::Refused)
}

fn bytes(size: usize) -> impl Iterator<Item = Kind> {
    [Kind::Size(size, "bytes")].into_iter()
}

/// Adds kinds of a call, or of something else.
type Add<'a> = dyn FnMut(&'static str, &mut dyn Iterator<Item = Kind>) + 'a;

/// What must be met of states in this edition.
fn due_in(edition: Edition, add: &mut Add) {
    let (states, largest): (&[u32], usize) = match edition {
        Edition::First => (&[9], LARGEST_DENSE),
        Edition::Second => (&[9, 18], LARGEST_STATE),
    };
    let wrote = || [Kind::Wrote].into_iter().chain(refused(states));
    add("state", &mut bytes(largest));
    for (what, name) in faults::changes(edition) {
        add(what, &mut [Kind::With(name)].into_iter());
    }
    add("record", &mut wrote().chain(refused(&[10, 11, 12, 13])).chain(bytes(largest)));
    add("judge", &mut [Kind::Allow, Kind::Hold(1)].into_iter().chain(refused(states)).chain(refused(&[10, 11, 12])));
    add("known", &mut [Kind::Yes, Kind::No].into_iter().chain(refused(states)));
    add("count", &mut wrote().chain(refused(&[13, 14, 15, 16])));
    add("count's state", &mut bytes(largest));
    add("older", &mut wrote().chain(refused(&[13, 17])));
    add("dense", &mut wrote().chain(refused(&[13])));
    add("sparse", &mut wrote().chain(refused(&[13])));
    add("list from fresh", &mut (1..=4).map(|counts| Kind::Size(counts, "head counts")));
    add("list from a given state", &mut [Kind::With("a head count")].into_iter());
}

/// All that must be met, in the order in which it is printed.
pub fn due() -> Vec<Of> {
    let refusals = |last: u32| (1..=last).map(Kind::Refused);
    let rooms = [Room::Zero, Room::Short, Room::OneShort, Room::Exact, Room::Larger].map(Kind::Room);
    let bounds = [(1, 64, "places"), (1, 64, "events"), (0, 32, "groups"), (0, 8, "deep"), (0, 16, "limits")];
    let mut due = Vec::new();
    let mut add_when = |when, what, kinds: &mut dyn Iterator<Item = Kind>| due.extend(kinds.map(|kind| of(what, kind).when(when)));
    let mut add = |what, kinds: &mut dyn Iterator<Item = Kind>| add_when("", what, kinds);
    add("fresh", &mut [Kind::Wrote].into_iter().chain(refusals(8)).chain([Kind::Refused(13)]).chain(rooms));
    add("fresh", &mut FRESH.iter().map(|(name, _)| Kind::With(name)));
    add(SETTLED, &mut (1..=8).map(|depth| Kind::Size(depth, "deep")));
    add("record", &mut [Kind::Wrote].into_iter().chain(refusals(13)).chain(rooms).chain([Kind::With(RAISED_IN_OPEN)]));
    add("judge", &mut [Kind::Allow].into_iter().chain((1..=16).map(Kind::Hold)).chain(refusals(12)));
    add(ALONE, &mut (1..=16).map(Kind::Hold));
    add(OVER_OTHERS, &mut (2..=16).map(Kind::Hold));
    add("judge", &mut OTHERS.iter().map(|(name, _)| Kind::With(name)));
    add("known", &mut [Kind::Yes, Kind::No].into_iter().chain(refusals(9)));
    add("count", &mut [Kind::Wrote].into_iter().chain(refusals(9)).chain(refused(&[13, 14, 15, 16])));
    add("count", &mut LISTS.iter().map(|(name, _)| Kind::With(name)));
    add("count", &mut TOKENS.iter().map(|(name, _)| Kind::With(name)));
    add("count", &mut [ONE_MORE, ONE_AS_MANY, ONE_BESIDE_OPEN].into_iter().map(Kind::With));
    add("count", &mut SHORT.iter().map(|(name, _)| Kind::With(name)));
    add("count", &mut [0, 1, 31, 32].into_iter().map(|groups| Kind::Size(groups, "groups")));
    add("count's description", &mut rooms.into_iter().chain(bytes(LARGEST_DESCRIPTION)));
    add("count's state", &mut rooms.into_iter());
    add("older", &mut [Kind::Wrote].into_iter().chain(refusals(9)).chain(refused(&[13, 17])).chain(rooms));
    add("older", &mut OLDER.iter().map(|(name, _)| Kind::With(name)).chain([9, 17].map(Kind::RefusedInNoRoom)));
    add("older", &mut bytes(LARGEST_FOR_OLDER));
    for call in ["dense", "sparse"] {
        add(call, &mut [Kind::Wrote].into_iter().chain(refusals(9)).chain(refused(&[13, 18])).chain(rooms));
        add(call, &mut [9, 18].map(Kind::RefusedInNoRoom).into_iter());
    }
    add("dense", &mut bytes(LARGEST_DENSE));
    add("sparse", &mut SPARSE.iter().map(|(name, _)| Kind::With(name)).chain(bytes(LARGEST_STATE)));
    for what in [COUNT, ESTIMATE, UNPLACED, REMAINDER, SUM, AFTER] {
        add(what, &mut EDGES.into_iter().map(|edge| Kind::Size(edge as usize, "tokens")));
    }
    add("net", &mut bounds.into_iter().flat_map(|(least, most, of)| [Kind::Size(least, of), Kind::Size(most, of)]));
    add("description", &mut bytes(LARGEST_DESCRIPTION));
    for edition in [Edition::First, Edition::Second] {
        due_in(edition, &mut |what, kinds| add_when(in_edition(edition), what, kinds));
    }
    add_when(AFTER_COUNT, "record", &mut [Kind::Wrote].into_iter().chain(refused(&[9, 10, 11, 12, 13])));
    add_when(AFTER_COUNT, "judge", &mut [Kind::Allow, Kind::Hold(1)].into_iter().chain(refused(&[9, 10, 11, 12])));
    add_when(AFTER_COUNT, "known", &mut [Kind::Yes, Kind::No, Kind::Refused(9)].into_iter());
    add_when(AFTER_COUNT, "count", &mut [Kind::Wrote].into_iter().chain(refused(&[9, 13, 14, 15, 16])));
    add_when(AFTER_COUNT, "older", &mut [Kind::Wrote].into_iter().chain(refused(&[9, 13, 17])));
    add_when(AFTER_COUNT, "dense", &mut [Kind::Wrote].into_iter().chain(refused(&[9, 13, 18])));
    add_when(AFTER_COUNT, "sparse", &mut [Kind::Wrote].into_iter().chain(refused(&[9, 13, 18])));
    for when in [AFTER_ONE, AT_FRESH] {
        add_when(when, "record", &mut [Kind::Wrote].into_iter().chain(refused(&[11, 12])));
        add_when(when, "judge", &mut [Kind::Allow, Kind::Hold(1)].into_iter().chain(refused(&[11, 12])));
        add_when(when, "known", &mut [Kind::Yes, Kind::No].into_iter());
    }
    add_when(AT_OPEN, "record", &mut [Kind::Wrote].into_iter().chain(refused(&[11, 12])));
    add_when(AT_OPEN, "judge", &mut [Kind::Allow, Kind::Hold(1)].into_iter().chain(refused(&[11, 12])));
    add_when(AT_OPEN, "known", &mut [Kind::No].into_iter());
    add_when(AT_OPEN, "count", &mut [Kind::Wrote].into_iter());
    add_when(AT_OPEN, "older", &mut [Kind::Wrote].into_iter().chain(refused(&[17])));
    due
}
