//! Bytes with faults: some of single bytes, some of whole stored numbers.

use crate::numbers::Numbers;
use reference::number::{put_number, Bytes};
use std::ops::Range;

/// Numbers at the bounds of what descriptions and states hold, and one past them.
const BOUNDS: [u32; 31] = [
    0,
    1,
    2,
    8,
    9,
    16,
    17,
    32,
    33,
    64,
    65,
    96,
    97,
    127,
    128,
    255,
    256,
    // the weights -1,000, 1,000, -1,001, 1,001 and the ceilings at their bounds, as they are stored
    1_999,
    2_000,
    2_001,
    2_002,
    65_535,
    65_536,
    16_777_215,
    16_777_216,
    1_999_999_999,
    2_000_000_000,
    2_000_000_001,
    2_000_000_002,
    u32::MAX - 1,
    u32::MAX,
];

/// The bytes with one to three faults.
pub fn damaged(bytes: &[u8], numbers: &mut Numbers) -> Vec<u8> {
    let mut bytes = bytes.to_vec();
    for _ in 0..numbers.pick(&[1, 1, 1, 1, 2, 3]) {
        if bytes.is_empty() {
            break;
        }
        // A fault near the front hides those after it, and most bytes are not near the front: each gets its share.
        let reach = if numbers.one_in(2) { bytes.len() } else { bytes.len().min(40) };
        let at = numbers.below(reach);
        if numbers.one_in(3) {
            damage_byte(&mut bytes, at, numbers);
        } else {
            damage_number(&mut bytes, at, numbers);
        }
    }
    bytes
}

fn damage_byte(bytes: &mut Vec<u8>, at: usize, numbers: &mut Numbers) {
    match numbers.within(0, 6) {
        0 => bytes[at] = numbers.next() as u8,
        1 => bytes[at] ^= 1 << numbers.within(0, 7),
        2 => bytes[at] = bytes[at].wrapping_add(1),
        3 => bytes.insert(at, numbers.next() as u8),
        4 => drop(bytes.remove(at)),
        5 => bytes.truncate(at),
        _ => {
            let length = numbers.below(4) + 1;
            bytes.extend(numbers.bytes(length));
        }
    }
}

/// The number that stands at the position, or goes on there.
fn around(bytes: &[u8], at: usize) -> Range<usize> {
    let start = bytes[..at].iter().rposition(|byte| byte & 0x80 == 0).map_or(0, |last| last + 1);
    let end = bytes[at..].iter().position(|byte| byte & 0x80 == 0).map_or(bytes.len(), |last| at + last + 1);
    start..end
}

fn damage_number(bytes: &mut Vec<u8>, at: usize, numbers: &mut Numbers) {
    let range = around(bytes, at);
    let old = bytes[range.clone()].to_vec();
    let value = Bytes::new(&old).number().unwrap_or(0);
    let mut new = Vec::new();
    match numbers.within(0, 8) {
        0 => put_number(&mut new, numbers.pick(&BOUNDS)),
        1 => put_number(&mut new, value.wrapping_add(1)),
        2 => put_number(&mut new, value.wrapping_sub(1)),
        3 => put_number(&mut new, numbers.within(0, 70)),
        // a longer form of the same number
        4 => {
            new.extend(&old);
            *new.last_mut().unwrap() |= 0x80;
            new.extend(numbers.pick(&[&[0][..], &[0x80, 0]]));
        }
        // past 4,294,967,295
        5 => new.extend(numbers.pick(&[&[0x80, 0x80, 0x80, 0x80, 0x10][..], &[0xFF, 0xFF, 0xFF, 0xFF, 0xFF, 0x01]])),
        6 => (),
        7 => new = [&old[..], &old].concat(),
        // with the next one, in the other order
        _ => {
            if range.end < bytes.len() {
                let next = around(bytes, range.end);
                new = [&bytes[next.clone()], &old].concat();
                bytes.drain(next);
            }
        }
    }
    bytes.splice(range, new);
}
