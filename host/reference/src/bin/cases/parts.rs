//! Descriptions put together from their parts, well formed or not.

use reference::number::{put_number, put_signed};

/// A member of a list.
#[derive(Clone)]
pub enum Member {
    Place(u32),
    Group(u32, Vec<Member>),
    /// Any mark, with nothing after it.
    Mark(u32),
}

pub use Member::{Group, Mark, Place};

pub fn put_list(out: &mut Vec<u8>, members: &[Member]) {
    put_number(out, members.len() as u32);
    for member in members {
        match member {
            Place(p) => {
                put_number(out, 0);
                put_number(out, *p);
            }
            Group(count, inner) => {
                put_number(out, 1);
                put_number(out, *count);
                put_list(out, inner);
            }
            Mark(mark) => put_number(out, *mark),
        }
    }
}

pub struct Parts {
    pub edition: u32,
    pub places: u32,
    pub events: u32,
    pub limits: u32,
    pub members: Vec<Member>,
    pub rows: Vec<Vec<[u32; 3]>>,
    pub bounds: Vec<(i64, Vec<(u32, i64)>)>,
    pub after: Vec<u8>,
}

impl Parts {
    /// So many loose places, one event that takes one from the first, and no limit.
    pub fn plain(places: u32) -> Parts {
        Parts {
            edition: 1,
            places,
            events: 1,
            limits: 0,
            members: (1..=places).map(Place).collect(),
            rows: vec![vec![[1, 1, 0]]],
            bounds: vec![],
            after: vec![],
        }
    }

    /// The largest description: every number at its longest.
    pub fn largest() -> Parts {
        let chain = |first: u32| {
            (0..8).rev().fold(Vec::new(), |inner: Vec<Member>, level| {
                let mut list = vec![Place(first + 2 * level), Place(first + 2 * level + 1)];
                list.extend(inner);
                vec![Group(16_777_215, list)]
            })
        };
        let terms = (1..=64).map(|p| (p, if p % 2 == 0 { 1_000 } else { -1_000 })).collect();
        Parts {
            edition: 1,
            places: 64,
            events: 64,
            limits: 16,
            members: (0..4).flat_map(|c| chain(1 + 16 * c)).collect(),
            rows: vec![(1..=64).map(|p| [p, 255, 255]).collect(); 64],
            bounds: vec![(-1_000_000_000, terms); 16],
            after: vec![],
        }
    }

    pub fn with(mut self, change: impl FnOnce(&mut Parts)) -> Parts {
        change(&mut self);
        self
    }

    pub fn members(self, members: Vec<Member>) -> Parts {
        self.with(|parts| parts.members = members)
    }

    pub fn arcs(self, arcs: Vec<[u32; 3]>) -> Parts {
        self.with(|parts| parts.rows = vec![arcs])
    }

    pub fn limit(self, ceiling: i64, terms: Vec<(u32, i64)>) -> Parts {
        self.with(|parts| {
            parts.limits = 1;
            parts.bounds = vec![(ceiling, terms)];
        })
    }

    pub fn bytes(&self) -> Vec<u8> {
        let mut out = Vec::new();
        for n in [self.edition, self.places, self.events, self.limits] {
            put_number(&mut out, n);
        }
        put_list(&mut out, &self.members);
        for row in &self.rows {
            put_number(&mut out, row.len() as u32);
            row.iter().flatten().for_each(|&n| put_number(&mut out, n));
        }
        for (ceiling, terms) in &self.bounds {
            put_signed(&mut out, *ceiling);
            put_number(&mut out, terms.len() as u32);
            for &(place, weight) in terms {
                put_number(&mut out, place);
                put_signed(&mut out, weight);
            }
        }
        out.extend_from_slice(&self.after);
        out
    }
}
