//! Nets and their descriptions.

use crate::number::{put_number, put_signed, Bytes};
use crate::{require, Refusal, BOUND};

#[derive(Clone, Debug, PartialEq, Eq)]
pub struct Group {
    /// The number of the group directly around it, 0 for none.
    pub around: usize,
    pub count: u32,
}

#[derive(Clone, Debug, PartialEq, Eq)]
pub struct Limit {
    pub ceiling: i64,
    pub weights: Vec<i64>,
}

/// A net. Places, events and limits are counted from 0, groups from 1; a place's home is 0 where it is loose.
#[derive(Clone, Debug, PartialEq, Eq)]
pub struct Net {
    pub homes: Vec<usize>,
    pub groups: Vec<Group>,
    pub takes: Vec<Vec<u32>>,
    pub gives: Vec<Vec<u32>>,
    pub limits: Vec<Limit>,
}

impl Net {
    pub fn places(&self) -> usize {
        self.homes.len()
    }

    /// Is place p among the places of group g?
    pub fn is_in(&self, p: usize, g: usize) -> bool {
        self.is_within(self.homes[p], g)
    }

    /// Is group h group g itself, or inside it? Where h is 0 there is no group.
    pub fn is_within(&self, h: usize, g: usize) -> bool {
        h != 0 && (h == g || self.is_within(self.groups[h - 1].around, g))
    }

    /// A number of group g less those of the groups directly inside.
    pub fn own(&self, numbers: &[u32], g: usize) -> i64 {
        let inside: i64 = (1..=self.groups.len())
            .filter(|&h| self.groups[h - 1].around == g)
            .map(|h| i64::from(numbers[h - 1]))
            .sum();
        i64::from(numbers[g - 1]) - inside
    }

    /// Is each group's own part of the numbers at least 0, and 0 where no place lies directly in it?
    pub fn shares_fit(&self, numbers: &[u32]) -> bool {
        (1..=self.groups.len()).all(|g| {
            let own = self.own(numbers, g);
            own >= 0 && (own == 0 || self.homes.contains(&g))
        })
    }
}

struct Members {
    homes: Vec<Option<usize>>,
    groups: Vec<Group>,
    /// The largest count.
    bound: u32,
}

/// A member list of group g, whose members that are groups are at the given depth.
fn read_list(bytes: &mut Bytes, members: &mut Members, g: usize, depth: usize) -> Result<(), Refusal> {
    let length = bytes.number()?;
    require(length <= 96, 3)?;
    let mut last_place = 0;
    let mut seen_group = false;
    for _ in 0..length {
        match bytes.number()? {
            0 => {
                require(!seen_group, 5)?;
                let place = bytes.number()? as usize;
                require(1 <= place && place <= members.homes.len(), 4)?;
                require(place > last_place, 5)?;
                require(members.homes[place - 1].is_none(), 6)?;
                members.homes[place - 1] = Some(g);
                last_place = place;
            }
            1 => {
                require(members.groups.len() < 32 && depth <= 8, 3)?;
                seen_group = true;
                let count = bytes.number()?;
                require(count <= members.bound, 4)?;
                members.groups.push(Group { around: g, count });
                let number = members.groups.len();
                read_list(bytes, members, number, depth + 1)?;
            }
            _ => return Err(4),
        }
    }
    Ok(())
}

/// A place number, greater than the one before it.
fn read_rising(bytes: &mut Bytes, places: usize, last: usize) -> Result<usize, Refusal> {
    let place = bytes.number()? as usize;
    require(1 <= place && place <= places, 4)?;
    require(place > last, 5)?;
    Ok(place)
}

fn read_event(bytes: &mut Bytes, places: usize) -> Result<(Vec<u32>, Vec<u32>), Refusal> {
    let arcs = bytes.number()? as usize;
    require(arcs <= places, 3)?;
    let (mut takes, mut gives) = (vec![0; places], vec![0; places]);
    let mut last = 0;
    for _ in 0..arcs {
        last = read_rising(bytes, places, last)?;
        let take = bytes.number()?;
        require(take <= 255, 4)?;
        let give = bytes.number()?;
        require(give <= 255, 4)?;
        require(take != 0 || give != 0, 5)?;
        takes[last - 1] = take;
        gives[last - 1] = give;
    }
    Ok((takes, gives))
}

fn read_limit(bytes: &mut Bytes, places: usize) -> Result<Limit, Refusal> {
    let ceiling = bytes.signed()?;
    require(ceiling.abs() <= 1_000_000_000, 4)?;
    let terms = bytes.number()? as usize;
    require(terms <= places, 3)?;
    let mut weights = vec![0; places];
    let mut last = 0;
    for _ in 0..terms {
        last = read_rising(bytes, places, last)?;
        let weight = bytes.signed()?;
        require(weight.abs() <= 1_000, 4)?;
        require(weight != 0, 5)?;
        weights[last - 1] = weight;
    }
    Ok(Limit { ceiling, weights })
}

/// The net of a description, or the refusal that comes first.
pub fn read_description(description: &[u8]) -> Result<Net, Refusal> {
    read_description_within(description, BOUND)
}

/// The same where counts have another bound.
pub fn read_description_within(description: &[u8], bound: u32) -> Result<Net, Refusal> {
    let mut bytes = Bytes::new(description);
    require(bytes.number()? == 1, 2)?;
    let places = bytes.number()? as usize;
    require((1..=64).contains(&places), 3)?;
    let events = bytes.number()? as usize;
    require((1..=64).contains(&events), 3)?;
    let limits = bytes.number()? as usize;
    require(limits <= 16, 3)?;
    let mut members = Members { homes: vec![None; places], groups: Vec::new(), bound };
    read_list(&mut bytes, &mut members, 0, 1)?;
    let homes = members.homes.into_iter().collect::<Option<Vec<usize>>>().ok_or(6u32)?;
    let mut net = Net { homes, groups: members.groups, takes: Vec::new(), gives: Vec::new(), limits: Vec::new() };
    let counts: Vec<u32> = net.groups.iter().map(|group| group.count).collect();
    require(net.shares_fit(&counts), 7)?;
    for _ in 0..events {
        let (takes, gives) = read_event(&mut bytes, places)?;
        net.takes.push(takes);
        net.gives.push(gives);
    }
    for _ in 0..limits {
        let limit = read_limit(&mut bytes, places)?;
        net.limits.push(limit);
    }
    require(bytes.left.is_empty(), 8)?;
    Ok(net)
}

fn put_list(out: &mut Vec<u8>, net: &Net, g: usize) {
    let places: Vec<usize> = (0..net.places()).filter(|&p| net.homes[p] == g).collect();
    let inner: Vec<usize> = (1..=net.groups.len()).filter(|&h| net.groups[h - 1].around == g).collect();
    put_number(out, (places.len() + inner.len()) as u32);
    for p in places {
        put_number(out, 0);
        put_number(out, p as u32 + 1);
    }
    for h in inner {
        put_number(out, 1);
        put_number(out, net.groups[h - 1].count);
        put_list(out, net, h);
    }
}

/// The description of a well-formed net.
pub fn write_description(net: &Net) -> Vec<u8> {
    let mut out = Vec::new();
    for size in [1, net.places(), net.takes.len(), net.limits.len()] {
        put_number(&mut out, size as u32);
    }
    put_list(&mut out, net, 0);
    for (takes, gives) in net.takes.iter().zip(&net.gives) {
        let arcs: Vec<usize> = (0..net.places()).filter(|&p| takes[p] != 0 || gives[p] != 0).collect();
        put_number(&mut out, arcs.len() as u32);
        for p in arcs {
            for n in [p as u32 + 1, takes[p], gives[p]] {
                put_number(&mut out, n);
            }
        }
    }
    for limit in &net.limits {
        put_signed(&mut out, limit.ceiling);
        let terms: Vec<usize> = (0..net.places()).filter(|&p| limit.weights[p] != 0).collect();
        put_number(&mut out, terms.len() as u32);
        for p in terms {
            put_number(&mut out, p as u32 + 1);
            put_signed(&mut out, limit.weights[p]);
        }
    }
    out
}
