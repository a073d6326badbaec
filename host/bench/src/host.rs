//! The proved observer, by the crate `yarrowbeam`; the answers as the numbers of include/yarrowbeam.h.

use yarrowbeam::{Refusal, Verdict};

fn number<T>(answer: Result<T, Refusal>, accepted: impl Fn(T) -> i64) -> i64 {
    answer.map_or_else(|refusal| -i64::from(refusal.number()), accepted)
}

pub fn fresh(d: &[u8], out: &mut [u8]) -> i64 {
    number(yarrowbeam::fresh(d, out), |count| count as i64)
}

pub fn record(d: &[u8], s: &[u8], event: u32, out: &mut [u8]) -> i64 {
    number(yarrowbeam::record(d, s, event, out), |count| count as i64)
}

pub fn judge(d: &[u8], s: &[u8], event: u32) -> i64 {
    number(yarrowbeam::judge(d, s, event), |verdict| match verdict {
        Verdict::Allow => 0,
        Verdict::Hold(limit) => i64::from(limit),
    })
}

pub fn known(d: &[u8], s: &[u8]) -> i64 {
    number(yarrowbeam::known(d, s), i64::from)
}

pub fn count(d: &[u8], s: &[u8], places: &[u8], n: u32, described: &mut [u8], out: &mut [u8]) -> i64 {
    number(yarrowbeam::count(d, s, places, n, described, out), |(d, s)| (d as i64) << 32 | s as i64)
}

pub fn older(d: &[u8], s: &[u8], out: &mut [u8]) -> i64 {
    number(yarrowbeam::older(d, s, out), |count| count as i64)
}

pub fn dense(d: &[u8], s: &[u8], out: &mut [u8]) -> i64 {
    number(yarrowbeam::dense(d, s, out), |count| count as i64)
}

pub fn sparse(d: &[u8], s: &[u8], out: &mut [u8]) -> i64 {
    number(yarrowbeam::sparse(d, s, out), |count| count as i64)
}
