//! Nets and states that look random, the same in each run.

use reference::description::{Group, Limit};
use reference::{Edition, Net, State};

pub struct Random(pub u64);

impl Random {
    pub fn below(&mut self, n: u32) -> u32 {
        self.0 = self.0.wrapping_mul(6_364_136_223_846_793_005).wrapping_add(1_442_695_040_888_963_407);
        ((self.0 >> 33) % u64::from(n)) as u32
    }

    /// A net whose shares fit, and a state that fits it; at most eight groups, so that none lies too deep.
    pub fn net_and_state(&mut self, places: u32, events: u32, groups: u32, limits: u32) -> (Net, State) {
        let around = self.around(groups);
        let homes: Vec<usize> = (0..places).map(|_| self.below(groups + 1) as usize).collect();
        let counts = self.sums(&around, &homes, 9);
        let unplaced = self.sums(&around, &homes, 4);
        let takes = self.rows(events, places);
        let gives = self.rows(events, places);
        let limits = self.limits(limits, places);
        let estimates = (0..places).map(|_| self.below(4)).collect();
        let groups = around.iter().zip(&counts).map(|(&around, &count)| Group { around, count }).collect();
        (Net { homes, groups, takes, gives, limits }, State { edition: Edition::First, estimates, unplaced })
    }

    /// The group around each group: none, the group before, or one around that.
    fn around(&mut self, groups: u32) -> Vec<usize> {
        let mut around: Vec<usize> = Vec::new();
        for g in 0..groups as usize {
            let mut outer = if self.below(3) == 0 { 0 } else { g };
            while outer != 0 && self.below(2) == 0 {
                outer = around[outer - 1];
            }
            around.push(outer);
        }
        around
    }

    /// A number for each group: at most so many where places lie directly in it, and those of the groups inside.
    fn sums(&mut self, around: &[usize], homes: &[usize], most: u32) -> Vec<u32> {
        let mut own = |g: usize| if homes.contains(&g) { self.below(most + 1) } else { 0 };
        let mut numbers: Vec<u32> = (1..=around.len()).map(&mut own).collect();
        for g in (0..around.len()).rev() {
            if around[g] != 0 {
                numbers[around[g] - 1] += numbers[g];
            }
        }
        numbers
    }

    fn rows(&mut self, events: u32, places: u32) -> Vec<Vec<u32>> {
        (0..events).map(|_| (0..places).map(|_| self.below(5).saturating_sub(2)).collect()).collect()
    }

    fn limits(&mut self, limits: u32, places: u32) -> Vec<Limit> {
        let mut limit = || Limit {
            ceiling: i64::from(self.below(60)) - 20,
            weights: (0..places).map(|_| i64::from(self.below(9)) - 5).collect(),
        };
        (0..limits).map(|_| limit()).collect()
    }
}
