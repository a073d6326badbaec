//! Saved states: the two editions, and states for older observers.

use crate::description::Net;
use crate::number::{put_number, Bytes};
use crate::{require, Refusal, BOUND, OLDER_BOUND};

/// How a state is saved: edition 1 has every estimate and the unplaced numbers, edition 2 the estimates that are not 0, each after
/// its place, and the own remainders.
#[derive(Clone, Copy, Debug, PartialEq, Eq)]
pub enum Edition {
    First,
    Second,
}

/// The estimates of the places and the unplaced numbers of the groups, and the edition in which they are saved.
#[derive(Clone, Debug, PartialEq, Eq)]
pub struct State {
    pub edition: Edition,
    pub estimates: Vec<u32>,
    pub unplaced: Vec<u32>,
}

/// The bytes of the state in its own edition.
pub fn write_state(net: &Net, state: &State) -> Vec<u8> {
    match state.edition {
        Edition::First => dense(state),
        Edition::Second => sparse(net, state),
    }
}

/// The bytes of the state in edition 1.
pub fn dense(state: &State) -> Vec<u8> {
    let (places, groups) = (state.estimates.len() as u32, state.unplaced.len() as u32);
    stored(&[&[1, places], &state.estimates[..], &[groups], &state.unplaced].concat())
}

/// The bytes of the state in edition 2.
pub fn sparse(net: &Net, state: &State) -> Vec<u8> {
    let (places, groups) = (state.estimates.len() as u32, state.unplaced.len() as u32);
    let pairs: Vec<[u32; 2]> = (1..).zip(&state.estimates).filter(|(_, &e)| e != 0).map(|(place, &e)| [place, e]).collect();
    let remainders: Vec<u32> = (1..=net.groups.len()).map(|g| net.own(&state.unplaced, g) as u32).collect();
    stored(&[&[2, places, pairs.len() as u32], &pairs.concat()[..], &[groups], &remainders].concat())
}

/// The bytes of the state in edition 1, for older observers: refusal 17.
pub fn older(state: &State) -> Result<Vec<u8>, Refusal> {
    match state.estimates.iter().chain(&state.unplaced).max() {
        Some(&largest) if largest > OLDER_BOUND => Err(17),
        _ => Ok(dense(state)),
    }
}

fn stored(numbers: &[u32]) -> Vec<u8> {
    let mut out = Vec::new();
    numbers.iter().for_each(|&n| put_number(&mut out, n));
    out
}

/// The state in the bytes, if it is well formed and fits the net; else refusal 9, or 18 where a pair's place is out of order or
/// range or its estimate is 0: the one that is met first.
pub fn read_state(net: &Net, bytes: &[u8]) -> Result<State, Refusal> {
    read_state_within(net, bytes, BOUND)
}

/// The same by an older observer, which reads edition 1 alone and has its own bound; it knows no refusal but 9.
pub fn read_state_as_older(net: &Net, bytes: &[u8]) -> Result<State, Refusal> {
    read_state_within(net, bytes, OLDER_BOUND).ok().filter(|state| state.edition == Edition::First).ok_or(9)
}

/// The same where estimates, own remainders and unplaced numbers have another bound.
pub fn read_state_within(net: &Net, bytes: &[u8], bound: u32) -> Result<State, Refusal> {
    let mut bytes = Bytes::new(bytes);
    let edition = match bytes.number() {
        Ok(1) => Edition::First,
        Ok(2) => Edition::Second,
        _ => return Err(9),
    };
    require(bytes.number() == Ok(net.places() as u32), 9)?;
    let estimates = match edition {
        Edition::First => read_numbers(&mut bytes, net.places(), bound)?,
        Edition::Second => read_pairs(&mut bytes, net.places(), bound)?,
    };
    require(bytes.number() == Ok(net.groups.len() as u32), 9)?;
    let numbers = read_numbers(&mut bytes, net.groups.len(), bound)?;
    let unplaced = match edition {
        Edition::First => numbers,
        Edition::Second => sums(net, &numbers),
    };
    require(bytes.left.is_empty(), 9)?;
    require(net.shares_fit(&unplaced) && unplaced.iter().all(|&n| n <= bound), 9)?;
    Ok(State { edition, estimates, unplaced })
}

/// A number that is at most the bound.
fn read_number(bytes: &mut Bytes, bound: u32) -> Result<u32, Refusal> {
    bytes.number().ok().filter(|&n| n <= bound).ok_or(9)
}

fn read_numbers(bytes: &mut Bytes, size: usize, bound: u32) -> Result<Vec<u32>, Refusal> {
    (0..size).map(|_| read_number(bytes, bound)).collect()
}

/// How many pairs there are, then the pairs: the estimates of all places.
fn read_pairs(bytes: &mut Bytes, places: usize, bound: u32) -> Result<Vec<u32>, Refusal> {
    let mut estimates = vec![0; places];
    let mut last = 0;
    for _ in 0..read_number(bytes, places as u32)? {
        let place = read_number(bytes, u32::MAX)? as usize;
        require(last < place && place <= places, 18)?;
        let estimate = read_number(bytes, bound)?;
        require(estimate != 0, 18)?;
        estimates[place - 1] = estimate;
        last = place;
    }
    Ok(estimates)
}

/// The unplaced numbers: of each group the own remainders of the group itself and of all groups inside it.
fn sums(net: &Net, remainders: &[u32]) -> Vec<u32> {
    let groups = 1..=net.groups.len();
    groups.clone().map(|g| groups.clone().filter(|&h| net.is_within(h, g)).map(|h| remainders[h - 1]).sum()).collect()
}

#[cfg(test)]
mod tests {
    use super::*;
    use crate::description::Group;

    /// Places in groups, each of which has the group around it; no event and no limit. A state is not asked to agree with the counts.
    fn net(homes: &[usize], around: &[usize]) -> Net {
        let groups = around.iter().map(|&around| Group { around, count: 0 }).collect();
        Net { homes: homes.to_vec(), groups, takes: Vec::new(), gives: Vec::new(), limits: Vec::new() }
    }

    /// Place 1 in a group, the places 2 and 3 in one inside it, and a group without a place.
    fn nest() -> Net {
        net(&[1, 2, 2], &[0, 1, 0])
    }

    fn state(edition: Edition, estimates: &[u32], unplaced: &[u32]) -> State {
        State { edition, estimates: estimates.to_vec(), unplaced: unplaced.to_vec() }
    }

    /// The numbers of a state of the nest in both editions.
    const DENSE: [u32; 9] = [1, 3, 5, 0, 128, 3, 9, 4, 0];
    const SPARSE: [u32; 11] = [2, 3, 2, 1, 5, 3, 128, 3, 5, 4, 0];

    /// What is read of the nest's state with these numbers.
    fn read(numbers: &[u32]) -> Result<State, Refusal> {
        read_state(&nest(), &stored(numbers))
    }

    #[test]
    fn both_editions_of_a_state() {
        // two groups side by side in one without a place, and a chain of three
        let side = net(&[2, 3, 2, 0], &[0, 1, 1]);
        let chain = net(&[1, 2, 3], &[0, 1, 2]);
        for (net, estimates, unplaced, first, second) in [
            (nest(), &[5, 0, 128][..], &[9, 4, 0][..], &DENSE[..], &SPARSE[..]),
            (nest(), &[0, 0, 0], &[0, 0, 0], &[1, 3, 0, 0, 0, 3, 0, 0, 0], &[2, 3, 0, 3, 0, 0, 0]),
            // n = P, and all that is unplaced is inside
            (nest(), &[1, 2, 3], &[4, 4, 0], &[1, 3, 1, 2, 3, 3, 4, 4, 0], &[2, 3, 3, 1, 1, 2, 2, 3, 3, 3, 0, 4, 0]),
            (side, &[0, 0, 0, 7], &[5, 2, 3], &[1, 4, 0, 0, 0, 7, 3, 5, 2, 3], &[2, 4, 1, 4, 7, 3, 0, 2, 3]),
            (chain, &[0, 6, 0], &[9, 5, 3], &[1, 3, 0, 6, 0, 3, 9, 5, 3], &[2, 3, 1, 2, 6, 3, 4, 2, 3]),
            (net(&[0], &[]), &[16_777_215], &[], &[1, 1, 16_777_215, 0], &[2, 1, 1, 1, 16_777_215, 0]),
            (net(&[0], &[]), &[0], &[], &[1, 1, 0, 0], &[2, 1, 0, 0]),
        ] {
            for (edition, numbers) in [(Edition::First, first), (Edition::Second, second)] {
                let bytes = stored(numbers);
                let read = read_state(&net, &bytes).unwrap();
                assert_eq!(read, state(edition, estimates, unplaced), "{numbers:?}");
                assert_eq!(write_state(&net, &read), bytes);
                assert_eq!([dense(&read), sparse(&net, &read)], [stored(first), stored(second)]);
            }
        }
    }

    /// In either edition a number may be too long, and the bytes may end anywhere, or not end.
    #[test]
    fn forms() {
        for numbers in [&DENSE[..], &SPARSE] {
            let bytes = stored(numbers);
            (0..bytes.len()).for_each(|length| assert_eq!(read_state(&nest(), &bytes[..length]), Err(9), "{length} bytes"));
            for at in 0..numbers.len() {
                let [before, number, after] = [&numbers[..at], &numbers[at..=at], &numbers[at + 1..]].map(stored);
                let (last, rest) = number.split_last().unwrap();
                let longer = [&before[..], rest, &[last | 0x80, 0], &after].concat();
                let past_32_bits = [&before[..], &[0x80, 0x80, 0x80, 0x80, 0x10], &after].concat();
                assert_eq!([longer, past_32_bits].map(|bytes| read_state(&nest(), &bytes)), [Err(9), Err(9)], "number {at}");
            }
            for left in [0, 0x80] {
                assert_eq!(read_state(&nest(), &[&bytes[..], &[left]].concat()), Err(9));
            }
        }
        for edition in [0, 3, u32::MAX] {
            for numbers in [&DENSE[1..], &SPARSE[1..]] {
                assert_eq!(read(&[&[edition], numbers].concat()), Err(9), "edition {edition}");
            }
        }
        // each as the other edition
        assert_eq!(read(&[&[2], &DENSE[1..]].concat()), Err(9));
        assert_eq!(read(&[&[1], &SPARSE[1..]].concat()), Err(9));
    }

    #[test]
    fn refused_in_edition_1() {
        for numbers in [
            // the number of places, with as many estimates as it says or not
            [1, 2, 5, 0, 128, 3, 9, 4, 0].as_slice(),
            &[1, 2, 5, 0, 3, 9, 4, 0],
            &[1, 4, 5, 0, 128, 3, 9, 4, 0],
            &[1, 4, 5, 0, 128, 0, 3, 9, 4, 0],
            // that of groups
            &[1, 3, 5, 0, 128, 2, 9, 4, 0],
            &[1, 3, 5, 0, 128, 2, 9, 4],
            &[1, 3, 5, 0, 128, 4, 9, 4, 0],
            &[1, 3, 5, 0, 128, 4, 9, 4, 0, 0],
            // estimates and unplaced numbers above the bound
            &[1, 3, 16_777_216, 0, 128, 3, 9, 4, 0],
            &[1, 3, 5, 0, 16_777_216, 3, 9, 4, 0],
            &[1, 3, 5, 0, 128, 3, 16_777_216, 4, 0],
            &[1, 3, 5, 0, 128, 3, 16_777_216, 16_777_216, 0],
            // a remainder below 0, and one in a group without a place
            &[1, 3, 5, 0, 128, 3, 3, 4, 0],
            &[1, 3, 5, 0, 128, 3, 9, 4, 1],
        ] {
            assert_eq!(read(numbers), Err(9), "{numbers:?}");
        }
    }

    #[test]
    fn refused_in_edition_2() {
        for (refusal, numbers) in [
            // the number of places, and that of pairs
            (9, [2, 2, 2, 1, 5, 2, 128, 3, 5, 4, 0].as_slice()),
            (9, &[2, 4, 2, 1, 5, 3, 128, 3, 5, 4, 0]),
            (9, &[2, 3, 4, 1, 5, 2, 1, 3, 128, 4, 1, 3, 5, 4, 0]),
            // place 0, above P, the same again, and a lower one
            (18, &[2, 3, 2, 0, 5, 3, 128, 3, 5, 4, 0]),
            (18, &[2, 3, 2, 1, 5, 4, 128, 3, 5, 4, 0]),
            (18, &[2, 3, 2, 1, 5, u32::MAX, 128, 3, 5, 4, 0]),
            (18, &[2, 3, 2, 3, 5, 3, 128, 3, 5, 4, 0]),
            (18, &[2, 3, 2, 3, 128, 1, 5, 3, 5, 4, 0]),
            // an estimate of 0, and one above the bound
            (18, &[2, 3, 2, 1, 0, 3, 128, 3, 5, 4, 0]),
            (18, &[2, 3, 2, 1, 5, 3, 0, 3, 5, 4, 0]),
            (9, &[2, 3, 2, 1, 16_777_216, 3, 128, 3, 5, 4, 0]),
            (9, &[2, 3, 2, 1, 5, 3, 16_777_216, 3, 5, 4, 0]),
            // the number of groups, with as many remainders as it says or not
            (9, &[2, 3, 2, 1, 5, 3, 128, 2, 5, 4, 0]),
            (9, &[2, 3, 2, 1, 5, 3, 128, 2, 5, 4]),
            (9, &[2, 3, 2, 1, 5, 3, 128, 4, 5, 4, 0]),
            (9, &[2, 3, 2, 1, 5, 3, 128, 4, 5, 4, 0, 0]),
            // a remainder above the bound, and one in a group without a place
            (9, &[2, 3, 2, 1, 5, 3, 128, 3, 16_777_216, 0, 0]),
            (9, &[2, 3, 2, 1, 5, 3, 128, 3, 0, 16_777_216, 0]),
            (9, &[2, 3, 2, 1, 5, 3, 128, 3, 5, 4, 1]),
        ] {
            assert_eq!(read(numbers), Err(refusal), "{numbers:?}");
        }
    }

    /// The fault that is met first is answered, and only then what stands after it.
    #[test]
    fn the_order_in_edition_2() {
        for (refusal, numbers) in [
            // 9 before a pair at fault
            (9, [3, 3, 1, 0, 0, 3, 5, 4, 0].as_slice()),
            (9, &[2, 4, 1, 0, 0, 3, 5, 4, 0]),
            (9, &[2, 3, 4, 0, 0]),
            (9, &[2, 3, 2, 1, 16_777_216, 0, 5, 3, 5, 4, 0]),
            // 18 before all that follows, or does not
            (18, &[2, 3, 3, 0]),
            (18, &[2, 3, 3, 4]),
            (18, &[2, 3, 3, 2, 1, 2]),
            (18, &[2, 3, 3, 2, 1, 1]),
            (18, &[2, 3, 3, 1, 0]),
            (18, &[2, 3, 1, 0, 16_777_216, 3, 5, 4, 0]),
            (18, &[2, 3, 2, 1, 0, 2, 16_777_216, 3, 5, 4, 0]),
            (18, &[2, 3, 1, 1, 0, 2, 5, 4, 0]),
            (18, &[2, 3, 1, 1, 0, 3, 16_777_216, 4, 0]),
            (18, &[2, 3, 1, 1, 0, 3, 5, 4, 1]),
            (18, &[2, 3, 1, 1, 0, 3, 5, 4, 0, 0]),
        ] {
            assert_eq!(read(numbers), Err(refusal), "{numbers:?}");
        }
        // an ill-formed number is met as such, at a place, at an estimate and after a place at fault
        for (refusal, numbers) in [(9, [2, 3, 1].as_slice()), (9, &[2, 3, 1, 1]), (18, &[2, 3, 1, 0])] {
            assert_eq!(read_state(&nest(), &[&stored(numbers)[..], &[0x80, 0]].concat()), Err(refusal), "{numbers:?}");
        }
    }

    #[test]
    fn bounds() {
        let (nest, chain) = (nest(), net(&[1, 2, 3], &[0, 1, 2]));
        for (n, fits) in [(16_777_215, true), (16_777_216, false)] {
            for edition in [Edition::First, Edition::Second] {
                for (net, state) in [
                    (&nest, state(edition, &[n, 0, 0], &[0, 0, 0])),
                    (&nest, state(edition, &[0, 0, n], &[0, 0, 0])),
                    // one remainder, and several that are lower: in both groups, and in a chain
                    (&nest, state(edition, &[0; 3], &[n, 0, 0])),
                    (&nest, state(edition, &[0; 3], &[n, n, 0])),
                    (&nest, state(edition, &[0; 3], &[n, 1, 0])),
                    (&nest, state(edition, &[0; 3], &[n, n - 1, 0])),
                    (&chain, state(edition, &[0; 3], &[n, n - 1, n - 2])),
                    (&chain, state(edition, &[0; 3], &[n, n, n - 1])),
                    (&chain, state(edition, &[0; 3], &[n, 2_000_000, 1_000_000])),
                ] {
                    let read = read_state(net, &write_state(net, &state));
                    assert_eq!(read, if fits { Ok(state) } else { Err(9) });
                }
            }
        }
        // side by side no sum has both
        let side = state(Edition::Second, &[0, 0], &[16_777_215, 16_777_215]);
        assert_eq!(read_state(&net(&[1, 2], &[0, 0]), &stored(&[2, 2, 0, 2, 16_777_215, 16_777_215])), Ok(side));
    }

    /// 64 places, two in each of 32 groups; every number at its longest.
    #[test]
    fn the_longest_states() {
        let homes: Vec<usize> = (0..64).map(|p| 1 + p / 2).collect();
        let net = net(&homes, &[0; 32]);
        for (edition, length) in [(Edition::First, 387), (Edition::Second, 452)] {
            let longest = state(edition, &[16_777_215; 64], &[16_777_215; 32]);
            let bytes = write_state(&net, &longest);
            assert_eq!(bytes.len(), length);
            assert_eq!(read_state(&net, &bytes), Ok(longest));
        }
    }

    #[test]
    fn states_for_older_observers() {
        let net = net(&[1], &[0]);
        for (estimate, unplaced, readable) in [
            (0, 0, true),
            (65_535, 65_535, true),
            (65_536, 65_535, false),
            (65_535, 65_536, false),
            (16_777_215, 16_777_215, false),
        ] {
            let first = state(Edition::First, &[estimate], &[unplaced]);
            let bytes = stored(&[1, 1, estimate, 1, unplaced]);
            for edition in [Edition::First, Edition::Second] {
                let state = State { edition, ..first.clone() };
                assert_eq!(older(&state), if readable { Ok(bytes.clone()) } else { Err(17) });
            }
            assert_eq!(read_state_as_older(&net, &sparse(&net, &first)), Err(9));
            assert_eq!(read_state_as_older(&net, &bytes), if readable { Ok(first) } else { Err(9) });
        }
        // two remainders that older observers would read, but not always their sum
        let chain = self::net(&[1, 2], &[0, 1]);
        for (outer, answer) in [(65_534, Ok(stored(&[1, 2, 0, 0, 2, 65_535, 1]))), (65_535, Err(17))] {
            let state = read_state(&chain, &stored(&[2, 2, 0, 2, outer, 1])).unwrap();
            assert_eq!(older(&state), answer);
        }
        // a pair at fault is 9 to them, as all of edition 2
        assert_eq!(read_state_as_older(&net, &[2, 1, 1, 0]), Err(9));
    }
}
