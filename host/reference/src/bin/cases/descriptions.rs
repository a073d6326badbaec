//! The cases of descriptions.

use crate::parts::{put_list, Group, Mark, Member, Parts, Place};
use crate::{Call, Cases};
use reference::POOL;

pub fn add(cases: &mut Cases) {
    let mut describe = |label: &str, d: Vec<u8>| cases.add(label, &d, &[], Call::Describe, 0, 0);
    sizes(&mut describe);
    nesting(&mut describe);
    forms(&mut describe);
    editions(&mut describe);
    lengths(&mut describe);
    ranges(&mut describe);
    signed_ranges(&mut describe);
    order_of_members(&mut describe);
    order_of_rows(&mut describe);
    placed_once(&mut describe);
    shares(&mut describe);
    ends(&mut describe);
    for at in 0..POOL.len() {
        cases.add(&format!("the pool with each value at {at}"), &POOL, &[], Call::Changed, at as u32, 0);
    }
}

/// Two loose places.
fn two() -> Parts {
    Parts::plain(2)
}

/// Adds a case.
type Describe<'a> = dyn FnMut(&str, Vec<u8>) + 'a;

fn sizes(describe: &mut Describe) {
    let nested = vec![Group(5, vec![Place(1), Group(4, vec![Place(2)])])];
    let events = |n: u32| two().with(|p| { p.events = n; p.rows = vec![vec![]; n as usize]; });
    let limits = |n: u32| two().with(|p| { p.limits = n; p.bounds = vec![(0, vec![]); n as usize]; });
    let count = |n: u32| Parts::plain(1).members(vec![Group(n, vec![Place(1)])]);
    describe("the pool of three", POOL.to_vec());
    describe("counts 5 and 4", two().members(nested).arcs(vec![[1, 2, 0]]).bytes());
    describe("64 places", Parts::plain(64).bytes());
    describe("65 places", Parts::plain(65).bytes());
    describe("no place", Parts::plain(0).bytes());
    describe("64 events", events(64).bytes());
    describe("65 events", events(65).bytes());
    describe("no event", events(0).bytes());
    describe("16 limits", limits(16).bytes());
    describe("17 limits", limits(17).bytes());
    for n in [65_535, 65_536, 16_777_215, 16_777_216] {
        describe(&format!("count {n}"), count(n).bytes());
    }
    let largest = Parts::largest().bytes();
    assert_eq!(largest.len(), 24_037);
    describe("the largest description", largest);
}

fn nesting(describe: &mut Describe) {
    // groups one inside the other, the innermost with the given members
    let nest = |depth: u32, inner: Vec<Member>| {
        let members = (0..depth).fold(inner, |members, _| vec![Group(3, members)]);
        Parts::plain(1).members(members).bytes()
    };
    // so many places, and then so many empty groups
    let empty = |places: u32, groups: usize| {
        let mut parts = Parts::plain(places);
        parts.members.extend(vec![Group(0, vec![]); groups]);
        parts.bytes()
    };
    describe("depth 8", nest(8, vec![Place(1)]));
    describe("depth 9", nest(9, vec![Place(1)]));
    describe("depth 9 with a count past its bound", nest(8, vec![Place(1), Group(16_777_216, vec![])]));
    describe("32 groups", empty(1, 32));
    describe("33 groups", empty(1, 33));
    describe("a list of 96", empty(64, 32));
    describe("a list of 97", empty(64, 33));
}

fn forms(describe: &mut Describe) {
    describe("nothing", vec![]);
    for n in 0..POOL.len() {
        describe(&format!("the pool cut to {n}"), POOL[..n].to_vec());
    }
    for n in 0..POOL.len() {
        let mut bytes = POOL.to_vec();
        bytes[n] |= 0x80;
        bytes.insert(n + 1, 0);
        describe(&format!("the pool with a longer form at {n}"), bytes);
    }
    describe("an edition past 32 bits", vec![0x80, 0x80, 0x80, 0x80, 0x10]);
}

fn editions(describe: &mut Describe) {
    describe("edition 0", two().with(|p| p.edition = 0).bytes());
    describe("edition 2", two().with(|p| p.edition = 2).bytes());
    describe("edition 2 and no place", two().with(|p| { p.edition = 2; p.places = 0; }).bytes());
}

fn lengths(describe: &mut Describe) {
    describe("more arcs than places", two().arcs(vec![[1, 1, 0], [2, 1, 0], [2, 1, 0]]).bytes());
    describe("as many arcs as places", two().arcs(vec![[1, 1, 0], [2, 0, 1]]).bytes());
    describe("more terms than places", two().limit(0, vec![(1, 1), (2, 1), (2, 1)]).bytes());
    describe("as many terms as places", two().limit(0, vec![(1, 1), (2, -1)]).bytes());
}

fn ranges(describe: &mut Describe) {
    describe("mark 2", two().members(vec![Place(1), Mark(2)]).bytes());
    describe("mark 2 after a group", two().members(vec![Place(1), Place(2), Group(0, vec![]), Mark(2)]).bytes());
    describe("place 0", two().members(vec![Place(0), Place(1)]).bytes());
    describe("place 3 of 2", two().members(vec![Place(1), Place(3)]).bytes());
    describe("place 0 in an arc", two().arcs(vec![[0, 1, 0]]).bytes());
    describe("place 3 of 2 in an arc", two().arcs(vec![[3, 1, 0]]).bytes());
    describe("take 255", two().arcs(vec![[1, 255, 0]]).bytes());
    describe("take 256", two().arcs(vec![[1, 256, 0]]).bytes());
    describe("give 255", two().arcs(vec![[1, 0, 255]]).bytes());
    describe("give 256", two().arcs(vec![[1, 0, 256]]).bytes());
    describe("place 0 in a term", two().limit(0, vec![(0, 1)]).bytes());
    describe("place 3 of 2 in a term", two().limit(0, vec![(3, 1)]).bytes());
}

fn signed_ranges(describe: &mut Describe) {
    for ceiling in [1_000_000_000, -1_000_000_000, 1_000_000_001, -1_000_000_001] {
        describe(&format!("ceiling {ceiling}"), two().limit(ceiling, vec![(1, 1)]).bytes());
    }
    for weight in [1_000, -1_000, 1_001, -1_001, 1, -1, 0] {
        describe(&format!("weight {weight}"), two().limit(0, vec![(1, weight)]).bytes());
    }
}

/// Two places, one event and no limit, up to the end of the members.
fn up_to_members(members: &[Member]) -> Vec<u8> {
    let mut bytes = vec![1, 2, 1, 0];
    put_list(&mut bytes, members);
    bytes
}

fn order_of_members(describe: &mut Describe) {
    let after_group = |member: Member| vec![Place(1), Group(0, vec![]), member];
    describe("a place after a group", two().members(after_group(Place(2))).bytes());
    describe("a place out of range after a group", two().members(after_group(Place(9))).bytes());
    describe("a place mark at the end of the bytes after a group", up_to_members(&after_group(Mark(0))));
    describe("places falling", two().members(vec![Place(2), Place(1)]).bytes());
    describe("a place twice in one list", two().members(vec![Place(1), Place(1)]).bytes());
}

fn order_of_rows(describe: &mut Describe) {
    let mut cut = two().arcs(vec![[1, 256, 0]]).bytes();
    cut.pop();
    describe("arcs falling", two().arcs(vec![[2, 1, 0], [1, 1, 0]]).bytes());
    describe("an arc twice", two().arcs(vec![[1, 1, 0], [1, 1, 0]]).bytes());
    describe("an arc twice with a take past its bound", two().arcs(vec![[1, 1, 0], [1, 300, 0]]).bytes());
    describe("take and give both 0", two().arcs(vec![[1, 0, 0]]).bytes());
    describe("take past its bound and no give", cut);
    describe("terms falling", two().limit(0, vec![(2, 1), (1, 1)]).bytes());
    describe("a term twice", two().limit(0, vec![(1, 1), (1, 1)]).bytes());
}

/// A group with a place and a group inside, which has the other.
fn pair(outer: u32, inner: u32) -> Vec<Member> {
    vec![Group(outer, vec![Place(1), Group(inner, vec![Place(2)])])]
}

fn placed_once(describe: &mut Describe) {
    describe("a place in two lists", two().members(vec![Place(1), Place(2), Group(0, vec![Place(1)])]).bytes());
    describe("a place missing", two().members(vec![Place(1)]).bytes());
    describe("a place missing and a share below 0", Parts::plain(3).members(pair(1, 2)).bytes());
    describe("a place missing and no event", up_to_members(&[Place(1)]));
}

fn shares(describe: &mut Describe) {
    // a group with no direct place around one with place 2
    let around = |outer: u32| vec![Place(1), Group(outer, vec![Group(2, vec![Place(2)])])];
    describe("a share below 0", two().members(pair(1, 2)).bytes());
    describe("a share of 0", two().members(pair(2, 2)).bytes());
    describe("a share without a place", two().members(around(3)).bytes());
    describe("no share and no place", two().members(around(2)).bytes());
    describe("an empty group with a count", two().members(vec![Place(1), Place(2), Group(1, vec![])]).bytes());
    describe("a share below 0 and no event", up_to_members(&pair(1, 2)));
}

fn ends(describe: &mut Describe) {
    let inner = vec![Place(2), Group(4, vec![Place(1), Place(4)]), Group(0, vec![]), Group(3, vec![Place(3)])];
    let nested = vec![Place(6), Group(9, inner), Group(7, vec![Place(5)])];
    describe("a byte after the description", two().with(|p| p.after = vec![0]).bytes());
    describe("an incomplete number after the description", two().with(|p| p.after = vec![0x80]).bytes());
    describe("a share below 0 and a byte after", two().members(pair(1, 2)).with(|p| p.after = vec![0]).bytes());
    describe("groups side by side and nested", Parts::plain(6).members(nested).limit(-5, vec![(1, -7), (6, 1_000)]).bytes());
}
