//! Yarrowbeam's proved observer, for Rust: the functions of `include/yarrowbeam.h` on slices.
//!
//! A description says what the net is, a saved state what is known of it. Both are bytes; README.md shows them for one net.
//! No call keeps anything: the caller keeps the description and the state that the last accepted call wrote. After an accepted
//! [`count`] both are new, and belong together.
//!
//! A state has an edition: 1 has every estimate, 2 only those that are not 0, so that it is shorter where most are 0. Every call
//! that takes a state reads both. [`record`] and [`count`] write the edition that they read; [`fresh`], [`older`] and [`dense`]
//! write edition 1, and [`sparse`] writes edition 2.
//!
//! Every call ends on every input, and refuses what is no description, no state, no event or no head count; [`Refusal`] says
//! which refusal comes first. A call writes nothing but the first bytes of its outputs, as many as it answers; a refusal writes
//! nothing.
//! Calls may run in several threads at a time; none uses the heap, or more than [`LARGEST_STACK`] bytes of stack.
//!
//! The pool of three: three places in one group of 3, events that move a token from place 1 to 2, 2 to 3 and 3 to 1, and a
//! limit that allows two in place 3.
//!
//! ```
//! use yarrowbeam::{fresh, judge, known, record, Refusal, Verdict, LARGEST_STATE};
//!
//! let pool = [
//!     0x01, 0x03, 0x03, 0x01, 0x01, 0x01, 0x03, 0x03, 0x00, 0x01, 0x00, 0x02, 0x00, 0x03, 0x02, 0x01, 0x01, 0x00, 0x02, 0x00,
//!     0x01, 0x02, 0x02, 0x01, 0x00, 0x03, 0x00, 0x01, 0x02, 0x01, 0x00, 0x01, 0x03, 0x01, 0x00, 0x04, 0x01, 0x03, 0x02,
//! ];
//! let mut state = [0; LARGEST_STATE];
//! let mut length = fresh(&pool, &mut state)?;
//! assert_eq!(judge(&pool, &state[..length], 2), Ok(Verdict::Hold(1)));
//!
//! for _ in 0..3 {
//!     let mut after = [0; LARGEST_STATE];
//!     length = record(&pool, &state[..length], 1, &mut after)?;
//!     state = after;
//! }
//! assert_eq!(known(&pool, &state[..length]), Ok(true));
//! assert_eq!(judge(&pool, &state[..length], 2), Ok(Verdict::Allow));
//! assert_eq!(judge(&pool, &state[..length], 1), Err(Refusal::Impossible));
//! # Ok::<(), Refusal>(())
//! ```

#![warn(missing_docs)]

mod library;
mod refusal;

pub use refusal::Refusal;

/// The length of the largest description.
pub const LARGEST_DESCRIPTION: usize = 24_037;

/// The length of the largest state: an output of so many bytes is enough for any.
pub const LARGEST_STATE: usize = 452;

/// The most bytes of stack that the library uses in a call.
pub const LARGEST_STACK: usize = 6_144;

/// What judging says of an event.
#[derive(Clone, Copy, Debug, PartialEq, Eq, Hash)]
pub enum Verdict {
    /// No limit holds it.
    Allow,
    /// The highest limit that holds it has this number, counted from 1.
    Hold(u32),
}

/// Writes the fresh state of the net, in edition 1. In it the tokens of the groups are unplaced, but where a group has exactly one
/// direct place, its own share is in the estimate of that place. Answers the number of bytes written, or refusal 1 to 8 or 13.
///
/// ```
/// use yarrowbeam::{fresh, known, LARGEST_STATE};
///
/// // one place in a group of 5, and an event without arcs
/// let description = [1, 1, 1, 0, 1, 1, 5, 1, 0, 1, 0];
/// let mut state = [0; LARGEST_STATE];
/// let length = fresh(&description, &mut state)?;
/// // all of them are at the place, and none is unplaced
/// assert_eq!(state[..length], [1, 1, 5, 1, 0]);
/// assert_eq!(known(&description, &state[..length]), Ok(true));
/// # Ok::<(), yarrowbeam::Refusal>(())
/// ```
#[inline]
pub fn fresh(description: &[u8], out: &mut [u8]) -> Result<usize, Refusal> {
    written(library::fresh(description, out))
}

/// Writes the state after an event, counted from 1, in the edition of `state`. Recording does not judge: a held event is recorded
/// too. Answers the number of bytes written, or refusal 1 to 13 or 18.
#[inline]
pub fn record(description: &[u8], state: &[u8], event: u32, out: &mut [u8]) -> Result<usize, Refusal> {
    written(library::record(description, state, event, out))
}

/// Judges an event, counted from 1. Answers the verdict, or refusal 1 to 12 or 18.
#[inline]
pub fn judge(description: &[u8], state: &[u8], event: u32) -> Result<Verdict, Refusal> {
    Ok(match accepted(library::judge(description, state, event))? {
        0 => Verdict::Allow,
        limit => Verdict::Hold(limit as u32),
    })
}

/// Is it known where all tokens are: is nothing unplaced, and no place loose? Or refusal 1 to 9 or 18. After any calls from
/// [`fresh`] that is so exactly when just one placement of the tokens agrees with the head counts and with the recorded events. A
/// state from elsewhere is taken as it is, also if tokens are unplaced in a group with one direct place.
#[inline]
pub fn known(description: &[u8], state: &[u8]) -> Result<bool, Refusal> {
    Ok(accepted(library::known(description, state))? == 1)
}

/// Takes a head count while running: these loose places, one in a byte and in any order, hold `n` tokens together now. They
/// become a new outermost group, with the next number; if it is one place, its estimate becomes `n`. Writes the description with
/// that group to `described` and the state, in the edition of `state`, to `out`; from then on these two are used, and a copy that
/// was saved before is void. In the new description `n` is what was counted now, not at the start, so that [`fresh`] on it is not
/// the state that goes on.
///
/// Answers the bytes of the description and those of the state, or refusal 1 to 9, 13 to 16 or 18.
///
/// ```
/// use yarrowbeam::{count, LARGEST_DESCRIPTION, LARGEST_STATE};
///
/// // two loose places, two tokens seen at the first, and an event without arcs
/// let (description, state) = ([1, 2, 1, 0, 2, 0, 1, 0, 2, 0], [1, 2, 2, 0, 0]);
/// let (mut described, mut out) = ([0; LARGEST_DESCRIPTION], [0; LARGEST_STATE]);
/// let (length, state_length) = count(&description, &state, &[1, 2], 5, &mut described, &mut out)?;
/// // the places in a group of 5, and 3 of them not seen yet
/// assert_eq!(described[..length], [1, 2, 1, 0, 1, 1, 5, 2, 0, 1, 0, 2, 0]);
/// assert_eq!(out[..state_length], [1, 2, 2, 0, 1, 3]);
/// // or the first alone: all 5 are there, and the second stays loose
/// let (length, state_length) = count(&description, &state, &[1], 5, &mut described, &mut out)?;
/// assert_eq!(described[..length], [1, 2, 1, 0, 2, 0, 2, 1, 5, 1, 0, 1, 0]);
/// assert_eq!(out[..state_length], [1, 2, 5, 0, 1, 0]);
/// # Ok::<(), yarrowbeam::Refusal>(())
/// ```
#[inline]
pub fn count(
    description: &[u8],
    state: &[u8],
    places: &[u8],
    n: u32,
    described: &mut [u8],
    out: &mut [u8],
) -> Result<(usize, usize), Refusal> {
    let answer = accepted(library::count(description, state, places, n, described, out))?;
    // one number for both: the bytes of the description times 2^32, plus those of the state
    Ok(((answer >> 32) as usize, answer as u32 as usize))
}

/// Writes the same state in edition 1 for older observers, whose counts, estimates and unplaced numbers end at 65,535; no number
/// is changed. The counts of the description are not asked: an older observer refuses a description that has a larger one.
/// Answers the number of bytes written, or refusal 1 to 9, 13, 17 or 18.
///
/// ```
/// use yarrowbeam::{older, Refusal, LARGEST_STATE};
///
/// // one loose place, and an event without arcs; 65,535 tokens were seen at the place, and 65,536
/// let description = [1, 1, 1, 0, 1, 0, 1, 0];
/// let (state, larger) = ([1, 1, 0xFF, 0xFF, 0x03, 0], [1, 1, 0x80, 0x80, 0x04, 0]);
/// let mut out = [0; LARGEST_STATE];
/// let length = older(&description, &state, &mut out)?;
/// assert_eq!(out[..length], state);
/// assert_eq!(older(&description, &larger, &mut out), Err(Refusal::TooLarge));
/// # Ok::<(), Refusal>(())
/// ```
#[inline]
pub fn older(description: &[u8], state: &[u8], out: &mut [u8]) -> Result<usize, Refusal> {
    written(library::older(description, state, out))
}

/// Writes the same state in edition 1; a state of edition 1 is copied. Answers the number of bytes written, or refusal 1 to 9, 13
/// or 18.
///
/// ```
/// use yarrowbeam::{dense, Refusal, LARGEST_STATE};
///
/// // three loose places, and an event without arcs
/// let description = [1, 3, 1, 0, 3, 0, 1, 0, 2, 0, 3, 0];
/// let mut out = [0; LARGEST_STATE];
/// // one pair: 5 tokens were seen at place 2
/// let length = dense(&description, &[2, 3, 1, 2, 5, 0], &mut out)?;
/// assert_eq!(out[..length], [1, 3, 0, 5, 0, 0]);
/// // a place without a token has no pair
/// assert_eq!(dense(&description, &[2, 3, 1, 2, 0, 0], &mut out), Err(Refusal::Pair));
/// # Ok::<(), Refusal>(())
/// ```
#[inline]
pub fn dense(description: &[u8], state: &[u8], out: &mut [u8]) -> Result<usize, Refusal> {
    written(library::dense(description, state, out))
}

/// Writes the same state in edition 2; a state of edition 2 is copied. Answers the number of bytes written, or refusal 1 to 9, 13
/// or 18.
///
/// ```
/// use yarrowbeam::{dense, sparse, LARGEST_STATE};
///
/// // the places 1 and 2 in a group of 5, and 3 and 4 in a group of 4 inside it; an event without arcs
/// let description = [1, 4, 1, 0, 1, 1, 5, 3, 0, 1, 0, 2, 1, 4, 2, 0, 3, 0, 4, 0];
/// // one token was seen, at place 3; 4 and 3 are unplaced
/// let state = [1, 4, 0, 0, 1, 0, 2, 4, 3];
/// let (mut out, mut back) = ([0; LARGEST_STATE], [0; LARGEST_STATE]);
/// let length = sparse(&description, &state, &mut out)?;
/// // one pair, place 3 and its estimate 1; of the 4 unplaced ones of the outer group 1 is not in the inner one
/// assert_eq!(out[..length], [2, 4, 1, 3, 1, 2, 1, 3]);
/// let back_length = dense(&description, &out[..length], &mut back)?;
/// assert_eq!(back[..back_length], state);
/// # Ok::<(), yarrowbeam::Refusal>(())
/// ```
#[inline]
pub fn sparse(description: &[u8], state: &[u8], out: &mut [u8]) -> Result<usize, Refusal> {
    written(library::sparse(description, state, out))
}

/// An answer from 0 up; one below 0 is a refusal, minus its number.
#[inline]
fn accepted(answer: i64) -> Result<u64, Refusal> {
    u64::try_from(answer).map_err(|_| Refusal::from_number(answer.unsigned_abs()))
}

/// A count of bytes, which is at most the length of the output and so a `usize`.
#[inline]
fn written(answer: i64) -> Result<usize, Refusal> {
    accepted(answer).map(|count| count as usize)
}
