//! Nets of all sizes, mostly small ones, and states that fit them.

use crate::numbers::Numbers;
use reference::description::{Group, Limit, Net};
use reference::{judge, Edition, State, Verdict, BOUND, OLDER_BOUND};

/// Numbers at the bounds: the last that older observers read and the next one, the last that is read now and the next one.
pub const EDGES: [u32; 4] = [OLDER_BOUND, OLDER_BOUND + 1, BOUND, BOUND + 1];

/// From where to where numbers are chosen so that a state is as long as can be: estimates, so that the bound less two of them has
/// its longest form too; own parts of the innermost groups, and of those around them, so that no sum is past the bound.
#[derive(Clone, Copy)]
struct Long {
    estimates: (u32, u32),
    innermost: (u32, u32),
    around: (u32, u32),
}

/// The least number of four bytes. Seven of them together are within the bound, and eight are one past it.
pub const FOUR_BYTES: u32 = 2_097_152;

/// In both editions, where groups are at most seven deep.
const LONGEST: Long = Long {
    estimates: (FOUR_BYTES, (BOUND - FOUR_BYTES) / 2),
    innermost: (FOUR_BYTES, BOUND / 7),
    around: (FOUR_BYTES, BOUND / 7),
};

/// In edition 1 for older observers, where numbers have up to three bytes: own parts are not written.
const LONGEST_FOR_OLDER: Long = Long { estimates: (16_384, 24_575), innermost: (16_384, 49_151), around: (500, 1_500) };

/// The sizes of a net, and how its parts are chosen.
struct Shape {
    places: u32,
    events: u32,
    groups: u32,
    depth: usize,
    limits: u32,
    /// How many of 8 places an event has an arc at, and a limit a term.
    filled: u32,
    /// How many of 8 places are loose at least.
    loose: u32,
    /// No group has two direct places; those that are left over are loose.
    alone: bool,
    /// Groups stand in chains of this depth, and every number has its longest form.
    longest: bool,
    /// The largest count.
    bound: u32,
}

/// The shape of the largest description.
const LARGEST: Shape = Shape {
    places: 64,
    events: 64,
    groups: 32,
    depth: 7,
    limits: 16,
    filled: 8,
    loose: 0,
    alone: false,
    longest: true,
    bound: BOUND,
};

fn shape(numbers: &mut Numbers) -> Shape {
    let most = match numbers.within(1, 1_000) {
        1..=3 => return LARGEST,
        // so that a head count makes it the largest
        4..=20 => return Shape { groups: 31, loose: 1, ..LARGEST },
        21..=40 => LARGEST,
        41..=150 => Shape { places: 16, events: 12, groups: 12, ..LARGEST },
        _ => Shape { places: 6, events: 4, groups: 5, limits: 4, ..LARGEST },
    };
    let mut shape = Shape {
        places: numbers.within(1, most.places),
        events: numbers.within(1, most.events),
        groups: numbers.within(0, most.groups),
        depth: numbers.within(1, 8) as usize,
        // Hold numbers up to 16 are for small nets too.
        limits: if numbers.one_in(4) { 16 } else { numbers.within(0, most.limits) },
        filled: numbers.within(1, 8),
        loose: numbers.pick(&[0, 0, 2, 4, 6, 8]),
        alone: false,
        longest: false,
        bound: BOUND,
    };
    // A size at its bound, or one past it.
    match numbers.within(1, 400) {
        1 => shape.places = numbers.within(64, 65),
        2 => shape.events = numbers.within(64, 65),
        3 => shape.groups = numbers.within(32, 33),
        4 => shape.limits = numbers.within(16, 17),
        5 => (shape.groups, shape.depth) = (numbers.within(9, 12), 9),
        // with places for a head count
        6..=8 => (shape.groups, shape.loose) = (numbers.within(31, 32), numbers.within(2, 8)),
        // with a count one past its bound
        9..=12 => (shape.groups, shape.bound) = (numbers.within(1, 8), BOUND + 1),
        // with few places in many groups, at every depth
        13..=32 => {
            (shape.groups, shape.depth, shape.alone) = (numbers.within(1, 12), 8, true);
            shape.places = shape.groups + numbers.within(0, 2);
        }
        _ => (),
    }
    shape
}

/// A net; it is well formed unless its shape has a size or a count past the bounds.
pub fn net(numbers: &mut Numbers) -> Net {
    let shape = shape(numbers);
    let groups = groups(&shape, numbers);
    let first = if groups.is_empty() || !shape.longest && numbers.one_in(2) { 0 } else { 1 };
    let homes = (0..shape.places)
        .map(|p| match if shape.longest { 1 + p % 8 } else { numbers.within(1, 8) } {
            share if share <= shape.loose => 0,
            _ if shape.longest => 1 + p as usize % groups.len(),
            _ if shape.alone => if p < shape.groups { p as usize + 1 } else { 0 },
            _ => numbers.within(first, groups.len() as u32) as usize,
        })
        .collect();
    let mut net = Net { homes, groups, takes: Vec::new(), gives: Vec::new(), limits: Vec::new() };
    let counts = fitting(&net, shape.bound, shape.longest.then_some(LONGEST), numbers);
    net.groups.iter_mut().zip(counts).for_each(|(group, count)| group.count = count);
    for _ in 0..shape.events {
        let high = if shape.longest { 255 } else { numbers.pick(&[1, 2, 2, 4, 4, 255]) };
        let mut row = || -> Vec<u32> {
            (0..shape.places)
                .map(|_| match numbers.within(1, 8) {
                    _ if shape.longest => numbers.within(128, 255),
                    n if n <= shape.filled => numbers.within(0, high),
                    _ => 0,
                })
                .collect()
        };
        net.takes.push(row());
        net.gives.push(row());
    }
    // The limits from this one on are quiet, and at times all before it but one, so that each number is at times that of the highest
    // limit that holds, or of the only one.
    let end = numbers.within(0, shape.limits);
    let first = if numbers.one_in(3) { end.saturating_sub(1) } else { 0 };
    for l in 0..shape.limits {
        let limit = match net.limits.last() {
            _ if shape.longest => limit(&shape, numbers),
            Some(before) if numbers.one_in(8) => before.clone(),
            _ if (first..end).contains(&l) => limit(&shape, numbers),
            _ => quiet(&net, &shape, numbers),
        };
        net.limits.push(limit);
    }
    net
}

/// Groups in the order of their marks, without their counts.
fn groups(shape: &Shape, numbers: &mut Numbers) -> Vec<Group> {
    let mut groups: Vec<Group> = Vec::new();
    let mut depths = vec![0];
    let climb = numbers.pick(&[1, 2, 4, 1_000]);
    for _ in 0..shape.groups {
        // The group around is the one before, or one around that, or none.
        let mut around = groups.len();
        if shape.longest || shape.depth == 9 {
            around = if depths[around] == shape.depth { 0 } else { around };
        } else {
            while around != 0 && (depths[around] == shape.depth || numbers.one_in(climb)) {
                around = groups[around - 1].around;
            }
        }
        depths.push(depths[around] + 1);
        groups.push(Group { around, count: 0 });
    }
    groups
}

/// A number for each group, at most the bound, whose own parts are at least 0, and 0 where no place lies directly in the group. If
/// the bound is past that of counts, groups are filled up to it.
fn fitting(net: &Net, bound: u32, long: Option<Long>, numbers: &mut Numbers) -> Vec<u32> {
    let mut whole = vec![0; net.groups.len()];
    let high = numbers.pick(&[0, 1, 3, 3, 10, 300]);
    for g in (1..=net.groups.len()).rev().filter(|g| net.homes.contains(g)) {
        let around: Vec<usize> =
            std::iter::successors(Some(g), |&g| Some(net.groups[g - 1].around).filter(|&g| g != 0)).collect();
        let room = around.iter().map(|&g| bound - whole[g - 1]).min().unwrap_or(0);
        let own = match (long, numbers.within(1, 40)) {
            _ if bound > BOUND => room,
            (Some(long), _) => {
                let (low, high) = if whole[g - 1] == 0 { long.innermost } else { long.around };
                numbers.within(low, high)
            }
            (_, 1) => room,
            (_, 2) => numbers.within(0, room),
            (_, 3) => numbers.pick(&EDGES).saturating_sub(whole[g - 1]),
            _ => numbers.within(0, high),
        };
        around.iter().for_each(|&g| whole[g - 1] += own.min(room));
    }
    whole
}

fn weight(longest: bool, numbers: &mut Numbers) -> i64 {
    let high = if longest { 1_000 } else { numbers.pick(&[2, 2, 4, 4, 1_000]) };
    let size = i64::from(numbers.within(if longest { 65 } else { 0 }, high));
    if numbers.one_in(2) {
        size
    } else {
        -size
    }
}

fn weights(shape: &Shape, numbers: &mut Numbers) -> Vec<i64> {
    (0..shape.places).map(|_| if numbers.within(1, 8) <= shape.filled { weight(shape.longest, numbers) } else { 0 }).collect()
}

fn limit(shape: &Shape, numbers: &mut Numbers) -> Limit {
    let ceiling = match numbers.within(1, 20) {
        1 => 1_000_000_000,
        2 => -1_000_000_000,
        _ if shape.longest => i64::from(numbers.within(200_000_000, 1_000_000_000)),
        3 => i64::from(numbers.within(0, 2_000_000_000)) - 1_000_000_000,
        4 | 5 => i64::from(numbers.within(0, 4_000)) - 2_000,
        _ => i64::from(numbers.within(0, 30)) - 10,
    };
    Limit { ceiling, weights: weights(shape, numbers) }
}

/// A limit that seldom or never holds: its ceiling is the highest, and no loose place has a positive weight.
fn quiet(net: &Net, shape: &Shape, numbers: &mut Numbers) -> Limit {
    let mut weights = weights(shape, numbers);
    weights.iter_mut().zip(&net.homes).filter(|(_, &home)| home == 0).for_each(|(weight, _)| *weight = -weight.abs());
    Limit { ceiling: 1_000_000_000, weights }
}

/// How deep each group is, by its number; at 0 stands 0, for none.
pub fn depths(net: &Net) -> Vec<usize> {
    let mut depths = vec![0];
    for group in &net.groups {
        depths.push(depths[group.around] + 1);
    }
    depths
}

/// How deep the deepest group is; 0 where there is none.
pub fn deepest(net: &Net) -> usize {
    depths(net).into_iter().max().unwrap_or(0)
}

/// Has the group exactly one direct place?
pub fn has_one_place(net: &Net, g: usize) -> bool {
    net.homes.iter().filter(|&&home| home == g).count() == 1
}

/// The groups with exactly one direct place that have a part of their own in these numbers of the groups.
pub fn alone_with(net: &Net, numbers: &[u32]) -> Vec<usize> {
    (1..=net.groups.len()).filter(|&g| has_one_place(net, g) && net.own(numbers, g) > 0).collect()
}

/// The groups whose tokens are all at one place from the start.
pub fn settled(net: &Net) -> Vec<usize> {
    alone_with(net, &net.groups.iter().map(|group| group.count).collect::<Vec<_>>())
}

pub fn edition(numbers: &mut Numbers) -> Edition {
    numbers.pick(&[Edition::First, Edition::Second])
}

/// A state that fits the net and that perhaps no history gave.
pub fn state(net: &Net, numbers: &mut Numbers) -> State {
    // Few nets can have the longest state, or get it by a head count.
    let is_long = if net.groups.len() > 30 { !numbers.one_in(8) } else { numbers.one_in(8) };
    let long = is_long.then(|| numbers.pick(&[LONGEST, LONGEST, LONGEST, LONGEST_FOR_OLDER]));
    let high = numbers.pick(&[0, 1, 3, 3, 10, 300]);
    let estimates = (0..net.places())
        .map(|_| match (long, numbers.within(1, 40)) {
            (Some(Long { estimates: (low, high), .. }), _) => numbers.within(low, high),
            (_, 1) => numbers.pick(&EDGES[..3]),
            // from where one event passes the bound
            (_, 2) => numbers.pick(&EDGES) - numbers.pick(&[1, 2, 3, 4, 255]),
            (_, 3) => numbers.within(0, OLDER_BOUND),
            (_, 4) => numbers.within(0, BOUND),
            _ => numbers.within(0, high),
        })
        .collect();
    State { edition: edition(numbers), estimates, unplaced: fitting(net, BOUND, long, numbers) }
}

/// The state with one number at a bound or one past it. It fits as it did before where the number is not past the bound, and where
/// what is unplaced inside a group is not more than what is unplaced in it; in edition 2 a remainder is far past the bound then.
pub fn at_edge(net: &Net, state: &State, numbers: &mut Numbers) -> State {
    let mut state = state.clone();
    let outermost: Vec<usize> =
        (1..=net.groups.len()).filter(|g| net.groups[g - 1].around == 0 && net.homes.contains(g)).collect();
    let edge = numbers.pick(&EDGES);
    if outermost.is_empty() || numbers.one_in(2) {
        state.estimates[numbers.below(net.places())] = edge;
    } else {
        state.unplaced[numbers.pick(&outermost) - 1] = edge;
    }
    state
}

/// Moves the ceiling of a limit to where it just holds an event at a state, or just does not: one less or more decides.
pub fn tighten(net: &mut Net, state: &State, event: u32, numbers: &mut Numbers) {
    let Some(l) = (!net.limits.is_empty()).then(|| numbers.below(net.limits.len())) else { return };
    let mut alone = Net { limits: vec![net.limits[l].clone()], ..net.clone() };
    let mut holds = |ceiling: i64| {
        alone.limits[0].ceiling = ceiling;
        judge(&alone, state, event) == Ok(Verdict::Hold(1))
    };
    let (mut low, mut high) = (-1_000_000_000, 1_000_000_000);
    if !holds(low) || holds(high) {
        return;
    }
    while high - low > 1 {
        let middle = (low + high) / 2;
        if holds(middle) {
            low = middle;
        } else {
            high = middle;
        }
    }
    net.limits[l].ceiling = if numbers.one_in(2) { low } else { high };
}
