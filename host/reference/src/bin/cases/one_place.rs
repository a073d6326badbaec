//! The cases of groups with one direct place.

use crate::calls::{net, state, ROOM};
use crate::Cases;
use reference::{count, read_description, read_state, write_description, write_state};

pub fn add(cases: &mut Cases) {
    depths(cases);
    inside_and_around(cases);
    bounds(cases);
    counted(cases);
    counted_in_turn(cases);
    given(cases);
}

/// At each depth a place that is alone in its group, while the groups around it have two; and places that are alone in all eight.
fn depths(cases: &mut Cases) {
    let alone = [1, 2, 3, 4, 5, 6, 7, 8];
    let mut course = |label: &str, homes: &[usize], depth: usize| {
        let groups: Vec<(usize, u32)> = (0..depth).map(|g| (g, 3 * (depth - g) as u32)).collect();
        // one more at the innermost place: four are within the first limit and above the second
        let d = net(homes, &groups, &[&[(depth, 1, 2)]], &[(4, &[(depth, 1)]), (3, &[(depth, 1)])]);
        cases.course(label, &d, &[1]);
    };
    for depth in 1..=8 {
        course(&format!("alone at depth {depth}"), &[&alone[..depth], &alone[..depth - 1]].concat(), depth);
    }
    course("alone at all depths", &alone, 8);
}

/// Own remainders beside the groups inside, and groups around of all kinds.
fn inside_and_around(cases: &mut Cases) {
    for (label, homes, groups) in [
        ("both alone", &[1, 2][..], &[(0, 5), (1, 4)][..]),
        ("two inside", &[1, 2, 2], &[(0, 9), (1, 4)]),
        ("two around", &[2, 1, 1], &[(0, 9), (1, 4)]),
        ("all inside", &[1, 2, 2], &[(0, 4), (1, 4)]),
        ("none inside", &[2, 1, 1], &[(0, 4), (1, 0)]),
        ("side by side", &[2, 3, 1, 1], &[(0, 9), (1, 3), (1, 4)]),
        ("no place between", &[3, 1, 1], &[(0, 9), (1, 4), (2, 4)]),
        ("a loose place", &[1, 0], &[(0, 3)]),
    ] {
        let d = net(homes, groups, &[&[(1, 2, 1)], &[(2, 1, 0)]], &[(1, &[(1, 1), (2, -1)])]);
        cases.course(label, &d, &[1, 2]);
    }
}

/// Counts at the bounds. At the last one more token is out of range from the start; older observers do not read the last three.
fn bounds(cases: &mut Cases) {
    for n in [65_535, 65_536, 16_777_214, 16_777_215] {
        let d = net(&[2], &[(0, n), (1, n)], &[&[(1, 0, 1)], &[(1, 1, 0)]], &[(0, &[(1, 1)])]);
        let label = format!("alone with {n}");
        cases.course(&label, &d, &[1, 2]);
        cases.older(&label, &d, &state(&[n], &[0, 0]), ROOM);
    }
}

impl Cases {
    /// A head count, and whether all tokens are known after it; the description and the state that it wrote.
    fn count_then_known(&mut self, label: &str, d: &[u8], s: &[u8], places: &[u8], n: u32) -> Option<(Vec<u8>, Vec<u8>)> {
        let label = format!("{label}, count {n} at {places:?}");
        self.count(&label, d, s, places, n, [ROOM, ROOM]);
        let net = read_description(d).ok()?;
        let (net, state) = count(&net, &read_state(&net, s).ok()?, places, n).ok()?;
        let written = (write_description(&net), write_state(&net, &state));
        self.known(&label, &written.0, &written.1);
        Some(written)
    }
}

/// Place 1 is loose, and a group of 3 has the others, of which there are so many.
fn beside(others: usize) -> Vec<u8> {
    let homes: Vec<usize> = (0..=others).map(|p| p.min(1)).collect();
    net(&homes, &[(0, 3)], &[&[]], &[])
}

/// Head counts of one place, from the estimate up, and of two; and how much room there is: the state has a byte more, or two.
fn counted(cases: &mut Cases) {
    let (d, s) = (beside(1), state(&[2, 3], &[0]));
    for n in [1, 2, 3, 16_777_215, 16_777_216] {
        cases.count_then_known("one loose", &d, &s, &[1], n);
    }
    for (n, room) in [(127, 6), (127, 7), (128, 7), (128, 8)] {
        cases.count(&format!("one loose, count {n} in {room}"), &d, &s, &[1], n, [ROOM, room]);
    }
    let two = net(&[0, 0], &[], &[&[]], &[]);
    for (places, n) in [(&[2, 1][..], 3), (&[1, 2], 4), (&[1], 4)] {
        cases.count_then_known("two loose", &two, &state(&[2, 1], &[]), places, n);
    }
}

/// Two head counts of one place, and events at what each leaves: one for which there is no room once the first place is full, and
/// one that takes more than the last place has.
fn counted_in_turn(cases: &mut Cases) {
    let d = net(&[0, 1, 0], &[(0, 3)], &[&[(1, 0, 1)], &[(3, 3, 0)]], &[(9, &[(1, 1), (3, 2)])]);
    let mut now = Some((d, state(&[0, 3, 1], &[0])));
    for (place, n) in [(3, 2), (1, 16_777_215)] {
        now = now.and_then(|(d, s)| cases.count_then_known("in turn", &d, &s, &[place], n));
        now.iter().for_each(|(d, s)| (1..=2).for_each(|event| cases.event("in turn", d, s, event)));
    }
}

/// States that no list of calls gave, with tokens unplaced in a group with one place, as in one with two: they are taken as they
/// are, and a head count leaves them so.
fn given(cases: &mut Cases) {
    for (label, homes) in [("one place", &[1][..]), ("two places", &[1, 1])] {
        let d = net(homes, &[(0, 3)], &[&[(1, 1, 2)]], &[(2, &[(1, 1)])]);
        for (seen, unplaced) in [(0, 3), (1, 1), (0, 1), (1, 0), (0, 0)] {
            let (label, s) = (format!("{label}, {seen} seen and {unplaced} not"), state(&[seen, 0][..homes.len()], &[unplaced]));
            cases.known(&label, &d, &s);
            cases.event(&label, &d, &s, 1);
        }
        let others = homes.len();
        cases.count_then_known(&format!("{label}, 2 not seen"), &beside(others), &state(&[2, 1, 0][..=others], &[2]), &[1], 4);
    }
    let nested = net(&[1, 2, 0], &[(0, 5), (1, 4)], &[&[(1, 2, 0)], &[(2, 1, 0)]], &[]);
    for unplaced in [[5, 4], [6, 4]] {
        let (label, s) = (format!("one place each, not seen {unplaced:?}"), state(&[0, 0, 0], &unplaced));
        (1..=2).for_each(|event| cases.event(&label, &nested, &s, event));
        cases.count_then_known(&label, &nested, &s, &[3], 0);
    }
}
