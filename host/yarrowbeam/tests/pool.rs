//! The pool of three: every call, and every refusal.

use yarrowbeam::{count, dense, fresh, judge, known, older, record, sparse, Refusal, Verdict, LARGEST_DESCRIPTION, LARGEST_STATE};

const POOL: [u8; 39] = [
    0x01, 0x03, 0x03, 0x01, 0x01, 0x01, 0x03, 0x03, 0x00, 0x01, 0x00, 0x02, 0x00, 0x03, 0x02, 0x01, 0x01, 0x00, 0x02, 0x00, 0x01,
    0x02, 0x02, 0x01, 0x00, 0x03, 0x00, 0x01, 0x02, 0x01, 0x00, 0x01, 0x03, 0x01, 0x00, 0x04, 0x01, 0x03, 0x02,
];

const FRESH: [u8; 7] = [1, 3, 0, 0, 0, 1, 3];

/// Stored numbers: the last that older observers read, 65,535, and the next one; the last that is read now, 16,777,215, and the
/// next one.
const OLDER_LAST: [u8; 3] = [0xFF, 0xFF, 0x03];
const OLDER_NEXT: [u8; 3] = [0x80, 0x80, 0x04];
const LAST: [u8; 4] = [0xFF, 0xFF, 0xFF, 0x07];
const NEXT: [u8; 4] = [0x80, 0x80, 0x80, 0x08];

/// The pool with another count.
fn pool_of(count: &[u8]) -> Vec<u8> {
    [&POOL[..6], count, &POOL[7..]].concat()
}

/// A state of the pool, with tokens at place 2.
fn state_of(estimate: &[u8], unplaced: &[u8]) -> Vec<u8> {
    [&[1, 3, 0], estimate, &[0, 1], unplaced].concat()
}

#[test]
fn from_fresh_to_known() {
    let mut state = [0; 7];
    assert_eq!(fresh(&POOL, &mut state), Ok(7));
    assert_eq!(state, FRESH);
    for (recorded, verdict) in [Verdict::Hold(1), Verdict::Hold(1), Verdict::Allow].into_iter().enumerate() {
        assert_eq!(judge(&POOL, &state, 2), Ok(verdict));
        assert_eq!(known(&POOL, &state), Ok(false));
        let mut after = [0; LARGEST_STATE];
        assert_eq!(record(&POOL, &state, 1, &mut after), Ok(7));
        assert_eq!(after[..7], [1, 3, 0, recorded as u8 + 1, 0, 1, 2 - recorded as u8]);
        assert_eq!(after[7..], [0; LARGEST_STATE - 7]);
        state.copy_from_slice(&after[..7]);
    }
    assert_eq!(known(&POOL, &state), Ok(true));
    assert_eq!(judge(&POOL, &state, 1), Err(Refusal::Impossible));
}

#[test]
fn the_highest_of_two_limits() {
    // at most two in place 3, and at most one, in either order
    let [broad, narrow] = [[0x04, 0x01, 0x03, 0x02], [0x02, 0x01, 0x03, 0x02]];
    for (limits, alone) in [([broad, narrow], 2), ([narrow, broad], 1)] {
        let net = [&POOL[..3], &[2], &POOL[4..35], &limits.concat()].concat();
        // event 2 may leave three there, then two, then one
        assert_eq!(judge(&net, &FRESH, 2), Ok(Verdict::Hold(2)));
        assert_eq!(judge(&net, &state_of(&[2], &[1]), 2), Ok(Verdict::Hold(alone)));
        assert_eq!(judge(&net, &state_of(&[3], &[0]), 2), Ok(Verdict::Allow));
    }
}

#[test]
fn refusals_of_descriptions() {
    let changed = |at: usize, byte: u8| [&POOL[..at], &[byte], &POOL[at + 1..]].concat();
    let cases = [
        (Refusal::Number, Vec::new()),
        (Refusal::Number, POOL[..38].to_vec()),
        (Refusal::Edition, changed(0, 2)),
        (Refusal::Size, changed(1, 65)),
        (Refusal::Range, changed(5, 2)),
        (Refusal::Order, changed(11, 1)),
        // place 3 is left out
        (Refusal::Place, [&POOL[..7], &[2], &POOL[8..12], &POOL[14..]].concat()),
        // a group of 4 inside the group of 3
        (Refusal::Share, [&POOL[..7], &[4], &POOL[8..14], &[1, 4, 0], &POOL[14..]].concat()),
        (Refusal::BytesLeft, [&POOL[..], &[0]].concat()),
    ];
    for (refusal, description) in cases {
        let mut out = [0xA5; LARGEST_STATE];
        assert_eq!(fresh(&description, &mut out), Err(refusal));
        assert_eq!(record(&description, &FRESH, 1, &mut out), Err(refusal));
        assert_eq!(judge(&description, &FRESH, 1), Err(refusal));
        assert_eq!(known(&description, &FRESH), Err(refusal));
        let mut described = [0xA5; 50];
        assert_eq!(count(&description, &FRESH, &[1], 3, &mut described, &mut out), Err(refusal));
        assert_eq!(described, [0xA5; 50]);
        for call in [older, dense, sparse] {
            assert_eq!(call(&description, &FRESH, &mut out), Err(refusal));
            // the description is asked before the state
            assert_eq!(call(&description, &[2, 3, 1, 0], &mut out), Err(refusal));
        }
        assert_eq!(out, [0xA5; LARGEST_STATE]);
    }
}

#[test]
fn the_first_fault_that_is_met() {
    // 65 places, and no number after them: 3 before 1
    assert_eq!(fresh(&[0x01, 0x41], &mut []), Err(Refusal::Size));
    assert_eq!(record(&[0x01, 0x41], &[], 0, &mut []), Err(Refusal::Size));
    assert_eq!(judge(&[0x01, 0x41], &[], 0), Err(Refusal::Size));
    assert_eq!(known(&[0x01, 0x41], &[]), Err(Refusal::Size));
    assert_eq!(count(&[0x01, 0x41], &[], &[], 0, &mut [], &mut []), Err(Refusal::Size));
    for call in [older, dense, sparse] {
        assert_eq!(call(&[0x01, 0x41], &[], &mut []), Err(Refusal::Size));
    }
    // place 0 after place 1 is out of range and out of order: at one number the lowest
    let mut description = POOL;
    description[11] = 0;
    assert_eq!(judge(&description, &FRESH, 1), Err(Refusal::Range));
    // place 2 appears in two lists, and the number after it has no end: 6 before 1
    let twice = [&POOL[..4], &[2, 0, 2], &POOL[5..12], &[0x80]].concat();
    assert_eq!(judge(&twice, &FRESH, 1), Err(Refusal::Place));
}

#[test]
fn refusals_of_states_events_and_rooms() {
    let placed = [1, 3, 0, 3, 0, 1, 0];
    let high = state_of(&LAST, &[3]);
    let cases = [
        (Refusal::State, &FRESH[..6], 1, 7),
        (Refusal::State, &[], 1, 7),
        (Refusal::Event, &FRESH[..], 0, 7),
        (Refusal::Event, &FRESH[..], 4, 7),
        (Refusal::Impossible, &placed[..], 1, 7),
        (Refusal::OverRange, &high[..], 1, 7),
        (Refusal::Room, &FRESH[..], 1, 6),
        (Refusal::Room, &FRESH[..], 1, 0),
    ];
    for (refusal, state, event, room) in cases {
        let mut out = [0xA5; 7];
        assert_eq!(record(&POOL, state, event, &mut out[..room]), Err(refusal));
        assert_eq!(out, [0xA5; 7]);
        if refusal != Refusal::Room {
            assert_eq!(judge(&POOL, state, event), Err(refusal));
        }
        assert_eq!(known(&POOL, state), if refusal == Refusal::State { Err(refusal) } else { Ok(state == placed) });
    }
    assert_eq!(fresh(&POOL, &mut [0; 6]), Err(Refusal::Room));
}

#[test]
fn numbers_up_to_16_777_215() {
    let mut out = [0xA5; LARGEST_STATE];
    for count in [&OLDER_LAST[..], &OLDER_NEXT, &LAST] {
        let expected = state_of(&[0], count);
        assert_eq!(fresh(&pool_of(count), &mut out), Ok(expected.len()));
        assert_eq!(out[..expected.len()], expected);
    }
    assert_eq!(fresh(&pool_of(&NEXT), &mut out), Err(Refusal::Range));
    let expected = state_of(&OLDER_NEXT, &[2]);
    assert_eq!(record(&POOL, &state_of(&OLDER_LAST, &[3]), 1, &mut out), Ok(expected.len()));
    assert_eq!(out[..expected.len()], expected);
    assert_eq!(record(&POOL, &state_of(&LAST, &[3]), 1, &mut out), Err(Refusal::OverRange));
    for unfit in [state_of(&NEXT, &[3]), state_of(&[0], &NEXT)] {
        assert_eq!(known(&POOL, &unfit), Err(Refusal::State));
    }
}

#[test]
fn states_for_older_observers() {
    // also where the count is too large for older observers
    let full = state_of(&OLDER_LAST, &OLDER_LAST);
    for (description, state) in [(POOL.to_vec(), FRESH.to_vec()), (POOL.to_vec(), full.clone()), (pool_of(&LAST), full)] {
        let mut out = [0xA5; LARGEST_STATE];
        assert_eq!(older(&description, &state, &mut out), Ok(state.len()));
        assert_eq!(out[..state.len()], state);
        assert_eq!(out[state.len()..], [0xA5; LARGEST_STATE][state.len()..]);
        assert_eq!(older(&description, &state, &mut out[..state.len()]), Ok(state.len()));
        assert_eq!(older(&description, &state, &mut out[..state.len() - 1]), Err(Refusal::Room));
    }
    for (refusal, state) in [
        (Refusal::TooLarge, state_of(&OLDER_NEXT, &[3])),
        (Refusal::TooLarge, state_of(&[0], &OLDER_NEXT)),
        (Refusal::TooLarge, state_of(&LAST, &LAST)),
        (Refusal::State, state_of(&NEXT, &OLDER_NEXT)),
        (Refusal::State, state_of(&OLDER_NEXT, &NEXT)),
        (Refusal::State, FRESH[..6].to_vec()),
        (Refusal::State, Vec::new()),
    ] {
        for room in [0, 7, LARGEST_STATE] {
            let mut out = [0xA5; LARGEST_STATE];
            assert_eq!(older(&POOL, &state, &mut out[..room]), Err(refusal));
            assert_eq!(out, [0xA5; LARGEST_STATE]);
        }
    }
}

/// The pool's states while event 1 is recorded three times from fresh, in both editions.
const DENSE: [[u8; 7]; 4] = [FRESH, [1, 3, 0, 1, 0, 1, 2], [1, 3, 0, 2, 0, 1, 1], [1, 3, 0, 3, 0, 1, 0]];
const SPARSE: [&[u8]; 4] = [&[2, 3, 0, 1, 3], &[2, 3, 1, 2, 1, 1, 2], &[2, 3, 1, 2, 2, 1, 1], &[2, 3, 1, 2, 3, 1, 0]];

/// What a call writes where it has more room than it needs, and just as much; with a byte less it is refused.
fn written(call: impl Fn(&mut [u8]) -> Result<usize, Refusal>) -> Vec<u8> {
    let mut out = [0xA5; LARGEST_STATE];
    let length = call(&mut out).unwrap();
    assert_eq!(out[length..], [0xA5; LARGEST_STATE][length..]);
    let mut exact = vec![0xA5; length];
    assert_eq!(call(&mut exact[..length - 1]), Err(Refusal::Room));
    assert_eq!(exact, vec![0xA5; length]);
    assert_eq!(call(&mut exact), Ok(length));
    assert_eq!(exact, out[..length]);
    exact
}

/// Both editions of a state, from both.
fn assert_editions(description: &[u8], in_first: &[u8], in_second: &[u8]) {
    for state in [in_first, in_second] {
        assert_eq!(written(|out| dense(description, state, out)), in_first);
        assert_eq!(written(|out| sparse(description, state, out)), in_second);
    }
}

#[test]
fn from_fresh_to_known_in_edition_2() {
    for (recorded, verdict) in [Verdict::Hold(1), Verdict::Hold(1), Verdict::Allow].into_iter().enumerate() {
        let state = SPARSE[recorded];
        assert_editions(&POOL, &DENSE[recorded], state);
        assert_eq!(judge(&POOL, state, 2), Ok(verdict));
        assert_eq!(known(&POOL, state), Ok(false));
        assert_eq!(written(|out| record(&POOL, state, 1, out)), SPARSE[recorded + 1]);
        assert_eq!(written(|out| older(&POOL, state, out)), DENSE[recorded]);
    }
    assert_editions(&POOL, &DENSE[3], SPARSE[3]);
    assert_eq!(known(&POOL, SPARSE[3]), Ok(true));
    assert_eq!(judge(&POOL, SPARSE[3], 1), Err(Refusal::Impossible));
    // an estimate that falls to 0 has no pair any more
    assert_eq!(written(|out| record(&POOL, SPARSE[1], 2, out)), [2, 3, 1, 3, 1, 1, 2]);
}

#[test]
fn own_remainders_of_nested_groups() {
    // five places: the groups of 9 and of 7 inside it have two each, and one of 2 inside that the last one
    let nested = [&[1, 5, 1, 0, 1, 1, 9, 3, 0, 1, 0, 2, 1, 7, 3, 0, 3, 0, 4, 1, 2, 1, 0, 5][..], &[1, 1, 1, 0]].concat();
    assert_eq!(written(|out| fresh(&nested, out)), [1, 5, 0, 0, 0, 0, 2, 3, 7, 5, 0]);
    assert_editions(&nested, &[1, 5, 0, 0, 0, 0, 2, 3, 7, 5, 0], &[2, 5, 1, 5, 2, 3, 2, 5, 0]);
    assert_eq!(written(|out| record(&nested, &[2, 5, 1, 5, 2, 3, 2, 5, 0], 1, out)), [2, 5, 1, 5, 2, 3, 1, 5, 0]);
    // what is unplaced in the innermost group is so in all three
    assert_editions(&nested, &[1, 5, 0, 0, 0, 0, 0, 3, 9, 7, 2], &[2, 5, 0, 3, 2, 5, 2]);
    // a sum of remainders may be 16,777,215, and not more
    let unplaced = |outer: &[u8]| [&[2, 5, 0, 3], outer, &[0, 1]].concat();
    let in_first = [&[1, 5, 0, 0, 0, 0, 0, 3][..], &LAST, &[1, 1]].concat();
    assert_editions(&nested, &in_first, &unplaced(&[0xFE, 0xFF, 0xFF, 0x07]));
    // one place, in a group inside a group that has none of its own
    let inner = [1, 1, 1, 0, 1, 1, 0, 1, 1, 0, 1, 0, 1, 0];
    assert_editions(&inner, &[1, 1, 0, 2, 5, 5], &[2, 1, 0, 2, 0, 5]);
    for call in [older, dense, sparse] {
        assert_eq!(call(&nested, &unplaced(&LAST), &mut [0; LARGEST_STATE]), Err(Refusal::State));
        assert_eq!(call(&inner, &[2, 1, 0, 2, 1, 5], &mut [0; LARGEST_STATE]), Err(Refusal::State));
    }
}

#[test]
fn refusals_of_states_in_edition_2() {
    // the numbers of pairs and of groups, and the pairs; the pool has three places and a group
    let pairs = |pairs: &[u8]| [&[2, 3, pairs.len() as u8 / 2], pairs, &[1, 0]].concat();
    let cases = [
        (Refusal::Pair, pairs(&[0, 1])),
        (Refusal::Pair, pairs(&[4, 1])),
        (Refusal::Pair, pairs(&[2, 1, 2, 1])),
        (Refusal::Pair, pairs(&[2, 1, 1, 1])),
        (Refusal::Pair, pairs(&[2, 0])),
        // the first fault decides: what follows may be missing or ill-formed, and what stands before may not
        (Refusal::Pair, vec![2, 3, 1, 0]),
        (Refusal::Pair, vec![2, 3, 2, 2, 0, 0x80]),
        (Refusal::State, vec![2, 3, 1]),
        (Refusal::State, vec![2, 3, 1, 0x80, 0]),
        (Refusal::State, vec![2, 3, 1, 2]),
        (Refusal::State, [&[2, 3, 2, 2], &NEXT[..], &[0]].concat()),
        (Refusal::State, vec![2, 3, 4, 0]),
        (Refusal::State, vec![2, 4, 1, 0]),
        (Refusal::State, vec![3, 3, 1, 0]),
        (Refusal::State, vec![0, 3, 1, 0]),
        (Refusal::State, vec![2, 3, 0, 2, 0]),
        (Refusal::State, [&[2, 3, 0, 1], &NEXT[..]].concat()),
        (Refusal::State, vec![2, 3, 0, 1, 3, 0]),
        // edition 1 has no pairs
        (Refusal::State, vec![1, 3, 1, 0]),
    ];
    for (refusal, state) in cases {
        let (mut described, mut out) = ([0xA5; 50], [0xA5; LARGEST_STATE]);
        for room in [0, LARGEST_STATE] {
            let lent = &mut out[..room];
            assert_eq!(record(&POOL, &state, 0, lent), Err(refusal), "{state:?}");
            assert_eq!(count(&POOL, &state, &[], 0, &mut described, lent), Err(refusal), "{state:?}");
            for call in [older, dense, sparse] {
                assert_eq!(call(&POOL, &state, lent), Err(refusal), "{state:?}");
            }
        }
        assert_eq!(judge(&POOL, &state, 0), Err(refusal), "{state:?}");
        assert_eq!(known(&POOL, &state), Err(refusal), "{state:?}");
        assert_eq!((described, out), ([0xA5; 50], [0xA5; LARGEST_STATE]));
    }
    // the questions of an event and of older observers follow
    assert_eq!(judge(&POOL, SPARSE[0], 4), Err(Refusal::Event));
    let high = [&[2, 3, 1, 2], &LAST[..], &[1, 3]].concat();
    assert_eq!(record(&POOL, &high, 1, &mut []), Err(Refusal::OverRange));
    assert_eq!(older(&POOL, &high, &mut []), Err(Refusal::TooLarge));
    assert_editions(&POOL, &state_of(&LAST, &[3]), &high);
}

#[test]
fn the_longest_state() {
    // 64 places in 32 groups, two in each
    let groups: Vec<u8> = (1..=32).flat_map(|g| [1, 0, 2, 0, 2 * g - 1, 0, 2 * g]).collect();
    let description = [&[1, 64, 1, 0, 32][..], &groups, &[0]].concat();
    let pairs: Vec<u8> = (1..=64).flat_map(|place| [&[place], &LAST[..]].concat()).collect();
    let in_first = [&[1, 64][..], &LAST.repeat(64), &[32], &LAST.repeat(32)].concat();
    let in_second = [&[2, 64, 64][..], &pairs, &[32], &LAST.repeat(32)].concat();
    assert_eq!((in_first.len(), in_second.len()), (387, LARGEST_STATE));
    assert_editions(&description, &in_first, &in_second);
}

/// The pool with its places loose, and its state after event 1.
fn loose_pool() -> (Vec<u8>, [u8; 6]) {
    ([&POOL[..4], &[3], &POOL[8..]].concat(), [1, 3, 0, 1, 0, 0])
}

#[test]
fn a_head_count() {
    let (loose, state) = loose_pool();
    assert_eq!(judge(&loose, &state, 2), Ok(Verdict::Hold(1)));
    let (mut described, mut out) = ([0xA5; LARGEST_DESCRIPTION], [0xA5; LARGEST_STATE]);
    // three in all: the new group is that of the pool, and two of its tokens were not seen at a place yet
    assert_eq!(count(&loose, &state, &[3, 1, 2], 3, &mut described, &mut out), Ok((39, 7)));
    assert_eq!(described[..39], POOL);
    assert_eq!(described[39..], [0xA5; LARGEST_DESCRIPTION - 39]);
    assert_eq!(out[..7], [1, 3, 0, 1, 0, 1, 2]);
    assert_eq!(out[7..], [0xA5; LARGEST_STATE - 7]);
    // what was counted is used from then on: nothing is left at place 1 once two more have come from there
    let (described, mut state) = (&described[..39], out[..7].to_vec());
    for expected in [[1, 3, 0, 2, 0, 1, 1], [1, 3, 0, 3, 0, 1, 0]] {
        let mut after = [0; 7];
        assert_eq!(record(described, &state, 1, &mut after), Ok(7));
        assert_eq!(after, expected);
        state = after.to_vec();
    }
    assert_eq!(known(described, &state), Ok(true));
    assert_eq!(record(described, &state, 1, &mut out), Err(Refusal::Impossible));
    // the state keeps its edition
    let (mut described_again, mut out) = ([0xA5; 39], [0xA5; LARGEST_STATE]);
    assert_eq!(count(&loose, &[2, 3, 1, 2, 1, 0], &[3, 1, 2], 3, &mut described_again, &mut out), Ok((39, 7)));
    assert_eq!((&described_again[..], &out[..7]), (described, SPARSE[1]));
    // no place is loose any more, and a state from before the head count does not fit
    assert_eq!(count(described, &state, &[1], 3, &mut [0; 60], &mut out), Err(Refusal::NotLoose));
    assert_eq!(known(described, &loose_pool().1), Err(Refusal::State));
}

#[test]
fn groups_with_one_place() {
    // place 2 in a group of 3, and the others loose
    let one = [&POOL[..4], &[3, 0, 1, 0, 3, 1, 3, 1, 0, 2], &POOL[14..]].concat();
    let mut state = [0; 7];
    assert_eq!(fresh(&one, &mut state), Ok(7));
    assert_eq!(state, [1, 3, 0, 3, 0, 1, 0]);
    // any number may be at place 3, until it is counted; then two are there after the event, and place 1 alone is open
    assert_eq!(judge(&one, &state, 2), Ok(Verdict::Hold(1)));
    let (mut described, mut out) = ([0; LARGEST_DESCRIPTION], [0; LARGEST_STATE]);
    let (length, after) = count(&one, &state, &[3], 1, &mut described, &mut out).unwrap();
    let (second, state) = (described[..length].to_vec(), out[..after].to_vec());
    assert_eq!(state, [1, 3, 0, 3, 1, 2, 0, 0]);
    assert_eq!(judge(&second, &state, 2), Ok(Verdict::Allow));
    assert_eq!(known(&second, &state), Ok(false));
    let (length, after) = count(&second, &state, &[1], 5, &mut described, &mut out).unwrap();
    assert_eq!(described[..length], [&POOL[..4], &[3, 1, 3, 1, 0, 2, 1, 1, 1, 0, 3, 1, 5, 1, 0, 1], &POOL[14..]].concat());
    assert_eq!(out[..after], [1, 3, 5, 3, 1, 3, 0, 0, 0]);
    assert_eq!(known(&described[..length], &out[..after]), Ok(true));
    // a state from elsewhere is taken as it is
    let unplaced = [1, 3, 5, 2, 1, 3, 1, 0, 0];
    assert_eq!(known(&described[..length], &unplaced), Ok(false));
    assert_eq!(record(&described[..length], &unplaced, 2, &mut out), Ok(9));
    assert_eq!(out[..9], [1, 3, 5, 1, 2, 3, 1, 0, 0]);
}

#[test]
fn refusals_of_head_counts() {
    let (loose, state) = loose_pool();
    // place 2 in a group of 3, with one unplaced
    let in_a_group = [&POOL[..4], &[3, 0, 1, 0, 3, 1, 3, 1, 0, 2], &POOL[14..]].concat();
    // no token, and 32 groups
    let full = [&POOL[..4], &[35], &POOL[8..14], &[1, 0, 0].repeat(32), &POOL[14..]].concat();
    let in_full = [&[1, 3, 0, 0, 0, 32][..], &[0; 32]].concat();
    let cases = [
        (Refusal::State, &loose, &state[..5], &[1, 2][..], 3),
        (Refusal::NotLoose, &loose, &state, &[], 3),
        (Refusal::NotLoose, &loose, &state, &[0], 3),
        (Refusal::NotLoose, &loose, &state, &[4], 3),
        (Refusal::NotLoose, &loose, &state, &[1, 2, 1], 3),
        (Refusal::NotLoose, &in_a_group, &[1, 3, 0, 1, 0, 1, 1], &[1, 2], 3),
        (Refusal::Miscounted, &loose, &state, &[2], 0),
        (Refusal::Miscounted, &loose, &state, &[2], 16_777_216),
        (Refusal::NoGroupLeft, &full, &in_full, &[2], 0),
    ];
    for (refusal, description, state, places, n) in cases {
        let (mut described, mut out) = ([0xA5; 200], [0xA5; LARGEST_STATE]);
        assert_eq!(count(description, state, places, n, &mut described, &mut out), Err(refusal));
        assert_eq!((described, out), ([0xA5; 200], [0xA5; LARGEST_STATE]));
    }
    for (rooms, answer) in [((39, 7), Ok((39, 7))), ((38, 7), Err(Refusal::Room)), ((39, 6), Err(Refusal::Room))] {
        let (mut described, mut out) = ([0xA5; 39], [0xA5; 7]);
        assert_eq!(count(&loose, &state, &[1, 2, 3], 3, &mut described[..rooms.0], &mut out[..rooms.1]), answer);
        if answer.is_err() {
            assert_eq!((described, out), ([0xA5; 39], [0xA5; 7]));
        }
    }
}

#[test]
fn head_counts_up_to_16_777_215() {
    let (loose, state) = loose_pool();
    for (n, stored, rest) in [(65_536, &OLDER_NEXT[..], &OLDER_LAST[..]), (16_777_215, &LAST, &[0xFE, 0xFF, 0xFF, 0x07])] {
        let (mut described, mut out) = ([0xA5; 60], [0xA5; 60]);
        let (description, after) = (pool_of(stored), state_of(&[1], rest));
        let lengths = (description.len(), after.len());
        assert_eq!(count(&loose, &state, &[1, 2, 3], n, &mut described, &mut out), Ok(lengths));
        assert_eq!((&described[..lengths.0], &out[..lengths.1]), (&description[..], &after[..]));
    }
}

#[test]
fn numbers_of_refusals() {
    for (i, refusal) in Refusal::ALL.into_iter().enumerate() {
        assert_eq!(refusal.number() as usize, i + 1);
    }
    assert_eq!(Refusal::Impossible.to_string(), "refused 11: the event is impossible");
}
