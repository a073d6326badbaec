//! What the two editions of a state mean: each is made of the other without loss, and the calls answer to both alike.

use crate::compare::Case;
use reference::Edition;
use yarrowbeam::{count, dense, judge, known, older, record, sparse, Refusal, Verdict, LARGEST_DESCRIPTION, LARGEST_STATE};

/// What a call writes.
type Written = Result<Vec<u8>, Refusal>;

fn written(write: impl FnOnce(&mut [u8]) -> Result<usize, Refusal>) -> Written {
    let mut out = [0; LARGEST_STATE];
    write(&mut out).map(|length| out[..length].to_vec())
}

/// What the calls of a case answer to a state. The states that they write are taken in edition 1.
#[derive(PartialEq, Eq)]
pub struct Answers {
    record: Written,
    judge: Result<Verdict, Refusal>,
    known: Result<bool, Refusal>,
    count: Result<(Vec<u8>, Vec<u8>), Refusal>,
    older: Written,
}

pub fn answers(case: &Case, s: &[u8]) -> Answers {
    let d = &case.description[..];
    let in_first = |d: &[u8], s: &[u8]| written(|out| dense(d, s, out));
    let counted = || {
        let (mut described, mut out) = (vec![0; LARGEST_DESCRIPTION], [0; LARGEST_STATE]);
        let (length, state_length) = count(d, s, &case.places, case.tokens, &mut described, &mut out)?;
        described.truncate(length);
        let state = in_first(&described, &out[..state_length])?;
        Ok((described, state))
    };
    Answers {
        record: written(|out| record(d, s, case.event, out)).and_then(|after| in_first(d, &after)),
        judge: judge(d, s, case.event),
        known: known(d, s),
        count: counted(),
        older: written(|out| older(d, s, out)),
    }
}

/// The state of a case, which is read in this edition: in its own edition it is copied, and in both it leads to the same two.
pub fn compare(case: &Case, edition: Edition) -> Result<(), String> {
    let (d, s) = (&case.description, &case.state);
    let in_both = |s: &[u8]| Ok([written(|out| dense(d, s, out))?, written(|out| sparse(d, s, out))?]);
    let both = in_both(s).map_err(|refusal: Refusal| format!("a state that is read is not converted: {refusal}"))?;
    let own = match edition {
        Edition::First => &both[0],
        Edition::Second => &both[1],
    };
    if own != s {
        return Err("a state is not copied to its own edition".to_string());
    }
    if both.iter().any(|s| in_both(s).as_ref() != Ok(&both)) {
        return Err("a state is not the same after it was converted there and back".to_string());
    }
    if answers(case, &both[0]) != answers(case, &both[1]) {
        return Err("the two editions of a state are answered in different ways".to_string());
    }
    Ok(())
}
