//! Inputs of the journal: short ones, of which every split is tried, long ones, and seeded ones.

use crate::kinds::BUFFER;
use reference::description::{Group, Limit, Net};
use reference::number::put_number;
use reference::{write_description, BOUND, OLDER_BOUND, POOL};
use seeded::damage::damaged;
use seeded::nets;
use seeded::numbers::Numbers;

/// What no stored number starts with: not shortest, too large, not complete (where nothing follows).
const ILL_FORMED: [&[u8]; 13] = [
    &[0x80, 0x00],
    &[0x81, 0x00],
    &[0xFF, 0x80, 0x00],
    &[0x80, 0x80, 0x80, 0x80, 0x00],
    &[0x80, 0x80, 0x80, 0x80, 0x10],
    &[0xFF, 0xFF, 0xFF, 0xFF, 0x1F],
    &[0x80, 0x80, 0x80, 0x80, 0x80, 0x01],
    &[0xFF, 0xFF, 0xFF, 0xFF, 0xFF, 0xFF, 0xFF, 0x7F],
    &[0x80],
    &[0xFF, 0xFF],
    &[0x80, 0x80, 0x80, 0x80],
    &[0xFF, 0xFF, 0xFF, 0xFF, 0xFF],
    &[0x80, 0x80, 0x80, 0x80, 0x80, 0x80],
];

fn stored(numbers: &[u32]) -> Vec<u8> {
    let mut bytes = Vec::new();
    numbers.iter().for_each(|&number| put_number(&mut bytes, number));
    bytes
}

/// A description after its length, and what follows.
fn input(description: &[u8], events: &[u8]) -> Vec<u8> {
    [&stored(&[description.len() as u32]), description, events].concat()
}

// ---- short ones

/// Events that take 1 from a place and give 1 to the next one, and from the last to the first; limits that each allow two there.
fn ring(homes: Vec<usize>, groups: Vec<Group>, limited: &[usize]) -> Net {
    let places = homes.len();
    let row = |at: usize| (0..places).map(|p| u32::from(p == at % places)).collect();
    let limit = |&at: &usize| Limit { ceiling: 2, weights: (0..places).map(|p| i64::from(p == at)).collect() };
    Net {
        homes,
        groups,
        takes: (0..places).map(row).collect(),
        gives: (1..=places).map(row).collect(),
        limits: limited.iter().map(limit).collect(),
    }
}

/// Inputs of a few hundred bytes at most: every ending, events of every length, and nets of every kind.
pub fn short() -> Vec<Vec<u8>> {
    let chain = |depth: usize| (0..depth).map(|g| Group { around: g, count: (depth - g) as u32 }).collect();
    let loose = write_description(&ring(vec![0; 3], Vec::new(), &[1]));
    let alone = write_description(&ring((1..=8).collect(), chain(8), &[0, 7]));
    let deep = write_description(&ring((1..=8).chain(1..=8).collect(), chain(8), &[0, 7]));
    let full = write_description(&ring(vec![1, 2], [BOUND, 1].map(|count| Group { around: 0, count }).into(), &[1]));
    let several = [(0, 4), (1, 2), (0, 3)].map(|(around, count)| Group { around, count });
    let several = write_description(&ring(vec![0, 1, 2, 3, 3, 2, 1], several.into(), &[4, 1, 5]));
    let narrow = write_description(&ring(vec![1; 3], vec![Group { around: 0, count: 3 }], &[1, 2, 1, 1, 2]));
    let wide = write_description(&ring(vec![1; 20], chain(1), &[3]));
    let lengths = stored(&[1, 0, 4, 127, 128, 16_383, 16_384, 2_097_151, 2_097_152, 268_435_455, 268_435_456, u32::MAX, 2]);
    let changed = |at: usize, byte: u8| [&POOL[..at], &[byte], &POOL[at + 1..]].concat();
    vec![
        Vec::new(),
        input(&POOL, &[]),
        input(&POOL, &[1, 1, 2, 1, 1]),
        input(&POOL, &lengths),
        input(&loose, &[1, 2, 3, 3, 4]),
        input(&alone, &[8, 1, 7, 2, 6, 3, 5, 4, 8, 8, 9]),
        input(&deep, &[8, 1, 7, 2, 6, 3, 5, 4, 8, 8, 17]),
        input(&full, &[2, 1, 2, 1, 1, 2, 2]),
        input(&several, &[4, 5, 6, 7, 1, 2, 3, 4, 4, 4]),
        input(&narrow, &[1, 2, 1, 1, 3, 1, 2, 2]),
        input(&wide, &[1, 2, 3, 20, 21]),
        input(&POOL, &[1, 0x80, 0x80]),
        input(&POOL, &[1, 0x80, 0x00, 1]),
        input(&POOL, &[2, 0xFF, 0xFF, 0xFF, 0xFF, 0x1F, 1]),
        input(&POOL, &[3, 0x80, 0x80, 0x80, 0x80, 0x80, 1]),
        input(&changed(0, 2), &[1]),
        input(&changed(11, 1), &[1]),
        input(&[&POOL[..], &[0]].concat(), &[1]),
        input(&POOL[..38], &POOL[38..]),
        [&[60], &POOL[..], &[1, 2, 3]].concat(),
        [&[0x80, 0x00], &POOL[..], &[1]].concat(),
        [&[0xFF, 0xFF, 0xFF, 0xFF, 0x10], &POOL[..], &[1]].concat(),
        vec![0xFF, 0xFF],
    ]
}

// ---- long ones

/// Descriptions of about the buffer's length and more: refused at their first number, refused later, or whole before their
/// end; and the input goes on after them, or ends there, or one byte before, or where the buffer does.
fn long_descriptions() -> Vec<Vec<u8>> {
    let mut largest = Vec::new();
    let mut numbers = Numbers(1);
    while largest.len() < 24_037 {
        largest = write_description(&nets::net(&mut numbers));
    }
    let fronts = [&[2][..], &POOL[..38], &POOL, &largest];
    let mut inputs = Vec::new();
    for length in (BUFFER - 1..BUFFER + 8).chain([2 * BUFFER, 200_000]) {
        for front in fronts {
            let mut description = front.to_vec();
            description.resize(length, 0x80);
            let whole = input(&description, &[1, 1]);
            let ends = [whole.len(), whole.len() - 2, whole.len() - 3, whole.len().min(BUFFER + 5)];
            inputs.extend(ends.map(|end| whole[..end].to_vec()));
        }
    }
    inputs.push([&stored(&[u32::MAX])[..], &POOL].concat());
    inputs
}

/// More events than the buffer holds: 70,000 bytes of each length, so that numbers lie across the buffer's end in every way, and
/// lengths without a pattern.
fn long_lists() -> Vec<Vec<u8>> {
    let mut numbers = Numbers(2);
    let mut lists: Vec<Vec<u8>> = (0..5).map(|first| vec![1; first]).collect();
    lists.iter_mut().for_each(|list| (0..14_000).for_each(|i| put_number(list, u32::MAX - i)));
    let mixed: Vec<u32> = (0..16_000).map(|i| if i % 4 == 0 { 1 + i / 4 % 3 } else { of_length(&mut numbers) }).collect();
    lists.push(stored(&mixed));
    lists.iter().map(|list| input(&POOL, list)).collect()
}

/// A loose place that comes to 65,535, past it, and to 16,777,215 by steps of 255; a step of one more is out of range.
fn filling() -> Vec<u8> {
    let steps = [(0, 255), (0, 1), (1, 1)];
    let row = |of: fn(&(u32, u32)) -> u32| steps.iter().map(|step| vec![of(step)]).collect();
    let (takes, gives) = (row(|step| step.0), row(|step| step.1));
    let net = Net { homes: vec![0], groups: Vec::new(), takes, gives, limits: Vec::new() };
    let mut events = vec![1; (BOUND / 255) as usize];
    events.extend([1, 2, 3]);
    input(&write_description(&net), &events)
}

pub fn long() -> Vec<Vec<u8>> {
    [long_descriptions(), long_lists(), vec![filling()]].concat()
}

/// The pool of three with its first event, and then one event after the other: each piece gives a line.
pub fn by_turns() -> (Vec<u8>, Vec<usize>) {
    let input = input(&POOL, &[1, 1, 2, 1, 1, 0]);
    let mut pieces = vec![1; 5];
    pieces.insert(0, input.len() - 5);
    (input, pieces)
}

// ---- seeded ones

/// A number whose stored form has 1 to 5 bytes, each as often.
fn of_length(numbers: &mut Numbers) -> u32 {
    let bytes = numbers.within(1, 5);
    let low = if bytes == 1 { 0 } else { 1 << (7 * (bytes - 1)) };
    let high = if bytes == 5 { u32::MAX } else { (1 << (7 * bytes)) - 1 };
    numbers.within(low, high)
}

/// Events, mostly of the net; or one over and over, until an estimate is too large for older observers, at times out of range.
fn events(net: &Net, numbers: &mut Numbers) -> Vec<u32> {
    let last = net.takes.len() as u32;
    let gains = |event: &u32| {
        let e = *event as usize - 1;
        (0..net.places()).map(|p| net.gives[e][p].saturating_sub(net.takes[e][p])).max().unwrap_or(0)
    };
    if numbers.one_in(16) {
        let most = (1..=last).max_by_key(gains).unwrap_or(1);
        if net.places() < 20 && gains(&most) >= 100 {
            let bound = if numbers.one_in(4) { BOUND } else { OLDER_BOUND };
            return vec![most; (bound / gains(&most)) as usize + 4];
        }
    }
    let count = if numbers.one_in(8) { 60 } else { 12 };
    (0..numbers.within(0, count))
        .map(|_| match numbers.within(1, 24) {
            1 => 0,
            2 => last + 1,
            3 => of_length(numbers),
            _ => numbers.within(1, last),
        })
        .collect()
}

/// Moves a limit of the net to where it just holds one of the events when that comes, or just does not.
fn tighten(net: &mut Net, events: &[u32], numbers: &mut Numbers) {
    let Some(asked) = (!events.is_empty()).then(|| numbers.below(events.len())) else { return };
    let mut state = reference::fresh(net);
    for &event in &events[..asked] {
        state = reference::record(net, &state, event).unwrap_or(state);
    }
    nets::tighten(net, &state, events[asked], numbers);
}

/// The input of a net, whole or with faults.
pub fn seeded(numbers: &mut Numbers) -> Vec<u8> {
    let mut net = nets::net(numbers);
    let mut events = events(&net, numbers);
    if numbers.one_in(4) && events.len() < 100 {
        tighten(&mut net, &events, numbers);
    }
    let description = write_description(&net);
    let whole = input(&description, &stored(&events));
    match numbers.within(1, 24) {
        1..=4 => input(&damaged(&description, numbers), &stored(&events)),
        // another length
        5 => {
            let length = if numbers.one_in(2) { of_length(numbers) } else { numbers.within(0, 2 * whole.len() as u32) };
            [&stored(&[length]), &description[..], &stored(&events)].concat()
        }
        6 => [numbers.pick(&ILL_FORMED), &description, &stored(&events)].concat(),
        7..=9 => {
            let rest = events.split_off(numbers.below(events.len() + 1));
            input(&description, &[&stored(&events)[..], numbers.pick(&ILL_FORMED), &stored(&rest)].concat())
        }
        10 => whole[..numbers.below(whole.len())].to_vec(),
        11 => damaged(&whole, numbers),
        12 => {
            let length = numbers.below(12);
            numbers.bytes(length)
        }
        _ => whole,
    }
}
