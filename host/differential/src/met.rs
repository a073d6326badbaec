//! How often each kind of case was met.

use std::collections::HashMap;
use std::fmt::Display;
use std::hash::Hash;

pub struct Met<Kind> {
    counts: HashMap<Kind, u64>,
}

impl<Kind> Default for Met<Kind> {
    fn default() -> Self {
        Met { counts: HashMap::new() }
    }
}

impl<Kind: Display + Eq + Hash> Met<Kind> {
    pub fn count(&mut self, kind: Kind) {
        *self.counts.entry(kind).or_default() += 1;
    }

    /// Prints how often each kind that is due was met; answers those that never were.
    pub fn print(&self, due: Vec<Kind>) -> Vec<String> {
        let mut never = Vec::new();
        for kind in due {
            let times = self.counts.get(&kind).copied().unwrap_or(0);
            println!("{kind}: {times}");
            if times == 0 {
                never.push(kind.to_string());
            }
        }
        never
    }
}
