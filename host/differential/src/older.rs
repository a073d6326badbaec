//! What a state for older observers means: they read the same numbers in it, and ours answers to it as to the state itself.

use crate::compare::Case;
use crate::editions::answers;
use reference::{dense, read_state_as_older, Edition, Net, State};
use yarrowbeam::{older, Refusal, LARGEST_STATE};

/// The net and the state of a case, which were read from its bytes: where a state is written, the reference reads it as an older
/// observer does; where it is refused, an older observer refuses the same numbers in edition 1, the only one that it reads.
pub fn compare(case: &Case, net: &Net, state: &State) -> Result<(), String> {
    let (d, s) = (&case.description, &case.state);
    let mut out = [0; LARGEST_STATE];
    let read = |bytes: &[u8]| read_state_as_older(net, bytes);
    let same = State { edition: Edition::First, ..state.clone() };
    match older(d, s, &mut out) {
        Err(Refusal::TooLarge) if read(&dense(state)) == Err(9) => Ok(()),
        Err(refusal) => Err(format!("older answered {}, but older observers read the state", refusal.number())),
        Ok(length) if read(&out[..length]) != Ok(same) => Err("older observers read another state".to_string()),
        Ok(length) if answers(case, &out[..length]) != answers(case, s) => {
            Err("the state for older observers is answered in another way".to_string())
        }
        Ok(_) => Ok(()),
    }
}
