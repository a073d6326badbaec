//! The scope document in plain Rust: descriptions, states and their editions, recording, judging, head counts, states for older
//! observers and the journal.
//!
//! It is written from the scope document and the changes requested later alone, and shares nothing with the proved code, so that
//! the two can be compared.
//! It favours directness over speed: vectors, recursion, and sums over all places of a group.

pub mod description;
pub mod journal;
pub mod number;
pub mod observer;
pub mod state;

pub use description::{read_description, read_description_within, write_description, Net};
pub use observer::{count, fresh, holding, judge, known, record, Verdict};
pub use state::{dense, older, read_state, read_state_as_older, read_state_within, sparse, write_state, Edition, State};

/// "Number when the answer is no".
pub type Refusal = u32;

fn require(yes: bool, refusal: Refusal) -> Result<(), Refusal> {
    if yes {
        Ok(())
    } else {
        Err(refusal)
    }
}

/// The largest count, estimate, unplaced number and head count.
pub const BOUND: u32 = 16_777_215;

/// The same for older observers.
pub const OLDER_BOUND: u32 = 65_535;

/// The bytes of "The pool of three".
pub const POOL: [u8; 39] = [
    0x01, 0x03, 0x03, 0x01, 0x01, 0x01, 0x03, 0x03, 0x00, 0x01, 0x00, 0x02, 0x00, 0x03, 0x02, 0x01, 0x01, 0x00, 0x02, 0x00, 0x01, 0x02,
    0x02, 0x01, 0x00, 0x03, 0x00, 0x01, 0x02, 0x01, 0x00, 0x01, 0x03, 0x01, 0x00, 0x04, 0x01, 0x03, 0x02,
];
