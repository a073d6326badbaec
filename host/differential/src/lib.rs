//! What both comparisons with the reference rest on: seeded numbers and nets, faults in bytes, and counts of what was met.

pub mod damage;
pub mod met;
pub mod nets;
pub mod numbers;

pub fn hex(bytes: &[u8]) -> String {
    bytes.iter().map(|byte| format!("{byte:02X}")).collect::<Vec<_>>().join(" ")
}
