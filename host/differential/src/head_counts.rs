//! What head counts are asked for: lists of places, good or with a fault, and numbers of tokens around the bounds.

use reference::{Net, State, BOUND, OLDER_BOUND};
use seeded::nets::FOUR_BYTES;
use seeded::numbers::Numbers;

/// Places of the net, one in a byte.
pub fn places(net: &Net, numbers: &mut Numbers) -> Vec<u8> {
    let (loose, grouped): (Vec<u8>, Vec<u8>) =
        (1..=net.places() as u8).partition(|&place| net.homes[usize::from(place) - 1] == 0);
    let mut places = some(if loose.is_empty() { &grouped } else { &loose }, numbers);
    let fault = match numbers.within(1, 24) {
        1 => Some(0),
        2 => Some(net.places() as u8 + 1),
        3 => Some(numbers.within(net.places() as u32 + 1, 255) as u8),
        4 => Some(numbers.pick(&places)),
        5 | 6 if !grouped.is_empty() => Some(numbers.pick(&grouped)),
        7 => return Vec::new(),
        8 => {
            // more than any net has
            let length = numbers.pick(&[65, 128, 255, 256, 257, 1_000]);
            return if loose.is_empty() { numbers.bytes(length) } else { loose.into_iter().cycle().take(length).collect() };
        }
        _ => None,
    };
    if let Some(fault) = fault {
        let at = numbers.below(places.len() + 1);
        places.insert(at, fault);
    }
    places
}

/// One of the places, two, all of them, or some, in any order.
fn some(of: &[u8], numbers: &mut Numbers) -> Vec<u8> {
    let mut rest = of.to_vec();
    let number = match numbers.within(1, 5) {
        1 => of.len(),
        2 => 1 + numbers.below(of.len()),
        3 => of.len().min(2),
        _ => 1,
    };
    (0..number).map(|_| rest.swap_remove(numbers.below(rest.len()))).collect()
}

/// What the estimates of the listed places add up to, or the largest number; numbers of no place are passed over.
pub fn estimated(state: &State, places: &[u8]) -> u32 {
    let listed = places.iter().filter_map(|&place| state.estimates.get(usize::from(place).checked_sub(1)?));
    listed.fold(0, |sum, &estimate| sum.saturating_add(estimate))
}

/// A number of tokens at the listed places.
pub fn tokens(state: &State, places: &[u8], numbers: &mut Numbers) -> u32 {
    let least = estimated(state, places);
    match numbers.within(1, 16) {
        // so that the unplaced number is at its longest where estimates are
        _ if least > FOUR_BYTES && numbers.one_in(2) => BOUND,
        1 => least.saturating_sub(1),
        2..=4 => least,
        5..=6 => BOUND,
        7 => BOUND + 1,
        8 => u32::MAX,
        9 => numbers.next() as u32,
        10 => numbers.within(0, least),
        11..=12 => numbers.within(least.min(BOUND), BOUND),
        13 => numbers.pick(&[OLDER_BOUND, OLDER_BOUND + 1]),
        _ => least.saturating_add(numbers.within(0, 5)),
    }
}
