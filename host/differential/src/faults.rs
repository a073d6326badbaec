//! Saved states with one change: a fault by name, with the refusal that is due to it, or a number replaced by another.

use reference::number::{put_number, Bytes};
use reference::{write_state, Edition, Net, State, BOUND};
use seeded::numbers::Numbers;

/// What was changed, and to what, in a state that was saved in this edition.
#[derive(Clone, Copy)]
pub struct Change {
    pub edition: Edition,
    pub what: &'static str,
    pub name: &'static str,
    /// The refusal that is due, unless it depends on the other numbers.
    pub refusal: Option<u32>,
}

/// The refusal, what is wrong, and how it is made.
type Fault = (u32, &'static str, Make);

/// Changes a state; answers which number is at fault, from 0, or nothing where the state has no room for such a fault. Where all
/// numbers together are at fault, it is the last that is met.
type Make = fn(&mut Saved, &mut Numbers) -> Option<usize>;

/// A state that fits, and its numbers in the forms in which they are stored.
struct Saved<'a> {
    net: &'a Net,
    state: &'a State,
    forms: Vec<Vec<u8>>,
}

fn forms(net: &Net, state: &State) -> Vec<Vec<u8>> {
    write_state(net, state).split_inclusive(|byte| byte & 0x80 == 0).map(<[u8]>::to_vec).collect()
}

/// What the numbers of a state are, in the order in which they stand.
fn parts(edition: Edition) -> &'static [&'static str] {
    match edition {
        Edition::First => &["edition", "number of places", "estimate", "number of groups", "unplaced number"],
        Edition::Second => {
            &["edition", "number of places", "number of pairs", "place", "estimate", "number of groups", "own remainder"]
        }
    }
}

impl Saved<'_> {
    fn places(&self) -> u32 {
        self.net.places() as u32
    }

    fn groups(&self) -> u32 {
        self.net.groups.len() as u32
    }

    fn pairs(&self) -> usize {
        self.state.estimates.iter().filter(|&&estimate| estimate != 0).count()
    }

    /// What stands at a position.
    fn part(&self, at: usize) -> &'static str {
        let (parts, groups) = (parts(self.state.edition), self.at_groups());
        match self.state.edition {
            _ if at == groups => parts[parts.len() - 2],
            _ if at > groups => parts[parts.len() - 1],
            Edition::First => parts[at.min(2)],
            Edition::Second => parts[if at > 3 { 3 + (at - 3) % 2 } else { at }],
        }
    }

    fn at_groups(&self) -> usize {
        match self.state.edition {
            Edition::First => 2 + self.net.places(),
            Edition::Second => 3 + 2 * self.pairs(),
        }
    }

    /// Where some group's own remainder or unplaced number stands.
    fn at_group(&self, numbers: &mut Numbers) -> Option<usize> {
        (self.groups() > 0).then(|| self.at_groups() + 1 + numbers.below(self.net.groups.len()))
    }

    /// Where the place of some pair stands, from this one on.
    fn at_pair(&self, from: usize, numbers: &mut Numbers) -> Option<usize> {
        (from < self.pairs()).then(|| 3 + 2 * (from + numbers.below(self.pairs() - from)))
    }

    fn at_estimate(&self, numbers: &mut Numbers) -> Option<usize> {
        match self.state.edition {
            Edition::First => Some(2 + numbers.below(self.net.places())),
            Edition::Second => Some(self.at_pair(0, numbers)? + 1),
        }
    }

    /// Where all numbers have been met.
    fn at_end(&self) -> Option<usize> {
        Some(self.forms.len() - 1)
    }

    /// Puts a number where another stands, and answers where.
    fn put(&mut self, at: usize, number: u32) -> Option<usize> {
        self.forms[at].clear();
        put_number(&mut self.forms[at], number);
        Some(at)
    }

    /// So many more are unplaced in group g, and in no group inside it.
    fn raise(&mut self, g: usize, n: u32) -> Option<usize> {
        let mut state = self.state.clone();
        (1..=state.unplaced.len()).filter(|&h| self.net.is_within(g, h)).for_each(|h| state.unplaced[h - 1] += n);
        self.forms = forms(self.net, &state);
        self.at_end()
    }

    fn some_group(&self, is: impl Fn(usize) -> bool, numbers: &mut Numbers) -> Option<usize> {
        let groups: Vec<usize> = (1..=self.net.groups.len()).filter(|&g| is(g)).collect();
        (!groups.is_empty()).then(|| numbers.pick(&groups))
    }

    /// What is unplaced in the outermost group around a group.
    fn outermost(&self, g: usize) -> u32 {
        match self.net.groups[g - 1].around {
            0 => self.state.unplaced[g - 1],
            around => self.outermost(around),
        }
    }
}

const IN_BOTH: [Fault; 14] = [
    (9, "edition 0", |saved, _| saved.put(0, 0)),
    (9, "edition 3", |saved, _| saved.put(0, 3)),
    (9, "a place less", |saved, _| saved.put(1, saved.places() - 1)),
    (9, "a place more", |saved, _| saved.put(1, saved.places() + 1)),
    (9, "an estimate past the bound", |saved, numbers| saved.put(saved.at_estimate(numbers)?, BOUND + 1)),
    (9, "a group less", |saved, _| saved.put(saved.at_groups(), saved.groups().checked_sub(1)?)),
    (9, "a group more", |saved, _| saved.put(saved.at_groups(), saved.groups() + 1)),
    (9, "a number of a group past the bound", |saved, numbers| saved.put(saved.at_group(numbers)?, BOUND + 1)),
    (9, "a remainder in a group without places", |saved, numbers| {
        let g = saved.some_group(|g| !saved.net.homes.contains(&g), numbers)?;
        saved.raise(g, 1)
    }),
    (9, "remainders up to the bound whose sum is past it", |saved, numbers| {
        let is_part = |g: usize| saved.net.own(&saved.state.unplaced, g) < saved.outermost(g).into();
        let g = saved.some_group(|g| saved.net.homes.contains(&g) && is_part(g), numbers)?;
        saved.raise(g, BOUND + 1 - saved.outermost(g))
    }),
    (9, "a number more", |saved, numbers| {
        saved.forms.push(Vec::new());
        saved.put(saved.at_end()?, numbers.next() as u32)
    }),
    (9, "a number in a longer form", |saved, numbers| {
        let at = numbers.below(saved.forms.len());
        *saved.forms[at].last_mut()? |= 0x80;
        saved.forms[at].push(0);
        Some(at)
    }),
    (9, "a number past 4,294,967,295", |saved, numbers| {
        let at = numbers.below(saved.forms.len());
        saved.forms[at] = vec![0x80, 0x80, 0x80, 0x80, 0x10];
        Some(at)
    }),
    (9, "a number cut short or missing", |saved, numbers| {
        let at = numbers.below(saved.forms.len());
        let length = numbers.below(saved.forms[at].len());
        saved.forms.truncate(at + 1);
        saved.forms[at].truncate(length);
        Some(at)
    }),
];

const IN_FIRST: [Fault; 1] = [(9, "a remainder below 0", |saved, numbers| {
    let inside = |g: usize| i64::from(saved.state.unplaced[g - 1]) - saved.net.own(&saved.state.unplaced, g);
    let g = saved.some_group(|g| inside(g) > 0, numbers)?;
    saved.put(saved.at_groups() + g, inside(g) as u32 - 1)?;
    saved.at_end()
})];

const IN_SECOND: [Fault; 6] = [
    (9, "more pairs than places", |saved, _| saved.put(2, saved.places() + 1)),
    (18, "a pair with place 0", |saved, numbers| saved.put(saved.at_pair(0, numbers)?, 0)),
    (18, "a pair with a place above P", |saved, numbers| saved.put(saved.at_pair(0, numbers)?, saved.places() + 1)),
    (18, "a pair with the place before it", |saved, numbers| {
        let at = saved.at_pair(1, numbers)?;
        saved.forms[at] = saved.forms[at - 2].clone();
        Some(at)
    }),
    (18, "two pairs in the other order", |saved, numbers| {
        let at = saved.at_pair(1, numbers)?;
        saved.forms.swap(at - 2, at);
        saved.forms.swap(at - 1, at + 1);
        Some(at)
    }),
    (18, "a pair with an estimate of 0", |saved, numbers| saved.put(saved.at_estimate(numbers)?, 0)),
];

fn faults(edition: Edition) -> Vec<Fault> {
    match edition {
        Edition::First => [&IN_BOTH[..], &IN_FIRST].concat(),
        Edition::Second => [&IN_BOTH[..], &IN_SECOND].concat(),
    }
}

/// The state with some fault, if it has room for it. What stands after the number at fault is not read: it is as it was, or
/// missing, or something else.
pub fn faulty(net: &Net, state: &State, numbers: &mut Numbers) -> Option<(Change, Vec<u8>)> {
    let (refusal, name, make) = numbers.pick(&faults(state.edition));
    let mut saved = Saved { net, state, forms: forms(net, state) };
    let at = make(&mut saved, numbers)?;
    let (read, rest) = saved.forms.split_at(at + 1);
    let rest = match (numbers.within(1, 4), rest.concat()) {
        (1, _) => Vec::new(),
        (2, rest) => numbers.bytes(rest.len()),
        (_, rest) => rest,
    };
    let change = Change { edition: state.edition, what: "state", name, refusal: Some(refusal) };
    Some((change, [read.concat(), rest].concat()))
}

/// What comes in place of a number.
type Instead = fn(u32) -> u32;

const REPLACED: [(&str, Instead); 5] = [
    ("0 instead", |_| 0),
    ("one more", |n| n + 1),
    ("one less", |n| n.wrapping_sub(1)),
    ("the bound instead", |_| BOUND),
    ("one past the bound instead", |_| BOUND + 1),
];

/// The state with some number replaced by another.
pub fn replaced(net: &Net, state: &State, numbers: &mut Numbers) -> Option<(Change, Vec<u8>)> {
    let mut saved = Saved { net, state, forms: forms(net, state) };
    let at = numbers.below(saved.forms.len());
    let (name, instead) = numbers.pick(&REPLACED);
    let change = Change { edition: state.edition, what: saved.part(at), name, refusal: None };
    let number = Bytes::new(&saved.forms[at]).number().ok()?;
    saved.put(at, instead(number));
    Some((change, saved.forms.concat()))
}

/// What can be changed in a state of this edition, and to what.
pub fn changes(edition: Edition) -> Vec<(&'static str, &'static str)> {
    let faults = faults(edition).into_iter().map(|(_, name, _)| ("state", name));
    faults.chain(parts(edition).iter().flat_map(|&part| REPLACED.map(|(name, _)| (part, name)))).collect()
}
