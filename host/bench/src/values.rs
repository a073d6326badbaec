//! The calls on values in memory, by crates/rounds. They run in this process; each event is judged, and recorded
//! where it is allowed.

use crate::host;
use crate::nets::Round;
use crate::ROOM;
use std::time::Instant;

mod c {
    extern "C" {
        pub fn value_rounds(
            d: *const u8,
            d_length: usize,
            events: *const u8,
            events_length: usize,
            out: *mut u8,
            out_length: usize,
        ) -> u32;
    }
}

/// The state after the events, one in a byte, from fresh, with 0; or a refusal's number.
fn value_rounds(d: &[u8], events: &[u8], out: &mut [u8]) -> u32 {
    // SAFETY: all three are slices, and `out`, being `&mut`, overlaps neither of the others.
    unsafe { c::value_rounds(d.as_ptr(), d.len(), events.as_ptr(), events.len(), out.as_mut_ptr(), out.len()) }
}

/// The same through the host's calls: the number of bytes.
fn by_host(d: &[u8], events: &[u8], out: &mut [u8; ROOM]) -> i64 {
    let mut count = host::fresh(d, out);
    for &event in events {
        let state = *out;
        let s = &state[..count as usize];
        if host::judge(d, s, event.into()) == 0 {
            count = host::record(d, s, event.into(), out);
        }
    }
    count
}

/// The seconds for the first events of a round, so many, where they lead to the state that the host's calls lead to.
pub fn seconds(round: &Round, events: usize) -> f64 {
    let events: Vec<u8> = round.events.iter().cycle().take(events).map(|&event| event as u8).collect();
    let (mut out, mut expected) = ([0; ROOM], [0; ROOM]);
    let begin = Instant::now();
    let refusal = value_rounds(&round.d, &events, &mut out);
    let seconds = begin.elapsed().as_secs_f64();
    assert_eq!(refusal, 0, "the calls on values refuse {}", round.name);
    assert!(by_host(&round.d, &events, &mut expected) > 0, "the host's calls refuse {}", round.name);
    assert_eq!(out, expected, "the calls on values leave another state");
    seconds
}
