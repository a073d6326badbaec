//! The cases of states for older observers.

use crate::calls::{longest, net, state, ROOM};
use crate::Cases;
use reference::POOL;

pub fn add(cases: &mut Cases) {
    written(cases);
    too_large(cases);
    sums(cases);
    order(cases);
    rooms(cases);
    longest_for_older(cases);
}

/// Places 1 and 4 are loose; place 2 lies in a group, and place 3 in one inside it. The outer count is too large for older
/// observers.
fn nested() -> Vec<u8> {
    net(&[0, 1, 2, 0], &[(0, 16_777_215), (1, 4)], &[&[(1, 1, 0), (3, 0, 1)]], &[(4, &[(2, 1), (3, 2)])])
}

/// States whose numbers are at most 65,535: numbers of one to three bytes, and counts that are not asked.
fn written(cases: &mut Cases) {
    for n in [0, 127, 128, 16_383, 16_384, 65_535] {
        cases.older(&format!("older, up to {n}"), &nested(), &state(&[n, 0, n, 1], &[n, n]), ROOM);
    }
    cases.older("older, no group", &net(&[0], &[], &[&[]], &[]), &state(&[65_535], &[]), ROOM);
    cases.older("older, more unplaced than the count", &POOL, &state(&[1, 2, 3], &[65_535]), ROOM);
}

/// One number above 65,535: each estimate, and each unplaced number.
fn too_large(cases: &mut Cases) {
    for n in [65_536, 16_777_215] {
        for p in 0..4 {
            let mut estimates = [65_535; 4];
            estimates[p] = n;
            cases.older(&format!("older, estimate {n} at {}", p + 1), &nested(), &state(&estimates, &[65_535, 65_535]), ROOM);
        }
        cases.older(&format!("older, unplaced {n} outside"), &nested(), &state(&[0; 4], &[n, 65_535]), ROOM);
        cases.older(&format!("older, unplaced {n} in both"), &nested(), &state(&[0; 4], &[n, n]), ROOM);
        cases.older(&format!("older, all {n}"), &nested(), &state(&[n; 4], &[n, n]), ROOM);
    }
    let beside = net(&[1, 2], &[(0, 9), (0, 9)], &[&[]], &[]);
    cases.older("older, unplaced 65536 in the second group", &beside, &state(&[0, 0], &[65_535, 65_536]), ROOM);
}

/// Own remainders that add up to 65,535, and to one more.
fn sums(cases: &mut Cases) {
    for (outer, inner) in [(65_535, 1), (65_535, 65_534), (65_536, 1), (65_536, 32_768)] {
        cases.older(&format!("older, unplaced {outer} and {inner}"), &nested(), &state(&[0; 4], &[outer, inner]), ROOM);
    }
}

/// 9 before 17, and 17 before 13.
fn order(cases: &mut Cases) {
    let d = nested();
    for (fault, s) in [
        ("an estimate out of range", state(&[65_536, 16_777_216, 0, 0], &[65_536, 0])),
        ("an unplaced number out of range", state(&[65_536, 0, 0, 0], &[16_777_216, 0])),
        ("a remainder below 0", state(&[65_536, 0, 0, 0], &[65_536, 65_537])),
        ("another number of places", state(&[65_536, 0, 0], &[65_536, 0])),
        ("a byte more", [&state(&[65_536, 0, 0, 0], &[65_536, 0])[..], &[0]].concat()),
    ] {
        cases.older(&format!("older, too large and {fault}"), &d, &s, 0);
    }
    for room in [0, 12, 13, ROOM] {
        cases.older(&format!("older, too large in {room}"), &d, &state(&[65_536, 0, 0, 0], &[65_536, 0]), room);
    }
}

/// No room, one byte too few, and exactly enough.
fn rooms(cases: &mut Cases) {
    let s = state(&[65_535, 128, 0, 1], &[65_535, 127]);
    for room in [0, 1, s.len() as u32 - 1, s.len() as u32] {
        cases.older(&format!("older in {room}"), &nested(), &s, room);
    }
}

/// The longest state that is written for older observers, and one that is longer.
fn longest_for_older(cases: &mut Cases) {
    let s = state(&[65_535; 64], &[65_535; 32]);
    assert_eq!(s.len(), 291);
    cases.older("older, the longest", &longest(), &s, 291);
    cases.older("older, the longest in 290", &longest(), &s, 290);
    cases.older("older, longer", &longest(), &state(&[16_777_215; 64], &[16_777_215; 32]), ROOM);
}
