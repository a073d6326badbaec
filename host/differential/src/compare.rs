//! One case: every call through the library beside the reference.

use crate::faults::Change;
use crate::kinds::{count_after, count_edges_of, count_fresh, count_head_count, count_holding, count_older, count_sizes};
use crate::kinds::{count_sparse, in_edition, in_edition_of, of, whens, Kind, Of, Room, AFTER_COUNT, AFTER_ONE, SHORT};
use crate::{editions, older};
use reference::{read_description, read_state, write_description, write_state, Net, State};
use seeded::hex;
use seeded::met::Met;
use seeded::numbers::Numbers;
use std::hint::black_box;
use yarrowbeam::{Refusal, LARGEST_DESCRIPTION, LARGEST_STATE};

pub struct Case {
    pub description: Vec<u8>,
    pub state: Vec<u8>,
    /// What was changed in the state, if it is that and nothing else.
    pub change: Option<Change>,
    pub event: u32,
    /// The places of a head count, and how many tokens they hold.
    pub places: Vec<u8>,
    pub tokens: u32,
    /// Was a head count accepted before? And was the call that was accepted last one of one place?
    pub counted: bool,
    pub counted_one: bool,
}

/// What a call answers.
#[derive(Clone, Debug, PartialEq, Eq)]
enum Answer {
    /// So many bytes to each output.
    Wrote(Vec<usize>),
    Verdict(yarrowbeam::Verdict),
    Known(bool),
    Refused(u32),
}

impl Answer {
    fn of<T>(answered: Result<T, Refusal>, accepted: fn(T) -> Answer) -> Answer {
        answered.map_or_else(|refusal| Answer::Refused(refusal.number()), accepted)
    }

    fn kind(&self) -> Kind {
        match *self {
            Answer::Wrote(_) => Kind::Wrote,
            Answer::Verdict(yarrowbeam::Verdict::Allow) => Kind::Allow,
            Answer::Verdict(yarrowbeam::Verdict::Hold(limit)) => Kind::Hold(limit),
            Answer::Known(true) => Kind::Yes,
            Answer::Known(false) => Kind::No,
            Answer::Refused(refusal) => Kind::Refused(refusal),
        }
    }
}

/// What a call writes to its outputs where there is room, or its refusal.
type Written<const N: usize> = Result<[Vec<u8>; N], u32>;

/// What the reference says of a case.
struct Expected {
    fresh: Written<1>,
    record: Written<1>,
    judge: Answer,
    known: Answer,
    count: Written<2>,
    older: Written<1>,
    dense: Written<1>,
    sparse: Written<1>,
    /// The net and the state, where both are read.
    read: Option<(Net, State)>,
}

/// Or a refusal that is due to a change of the state, but not what the reference says.
fn expected(case: &Case, met: &mut Met<Of>) -> Result<Expected, String> {
    let refused = |refusal| Expected {
        fresh: Err(refusal),
        record: Err(refusal),
        judge: Answer::Refused(refusal),
        known: Answer::Refused(refusal),
        count: Err(refusal),
        older: Err(refusal),
        dense: Err(refusal),
        sparse: Err(refusal),
        read: None,
    };
    count_edges_of(&case.description, &case.state, met);
    let net = match read_description(&case.description) {
        Ok(net) => net,
        Err(refusal) => return Ok(refused(refusal)),
    };
    count_sizes(&net, met);
    met.count(of("description", Kind::Size(case.description.len(), "bytes")));
    let fresh = reference::fresh(&net);
    count_fresh(&net, &fresh, met);
    let fresh = Ok([write_state(&net, &fresh)]);
    let read = read_state(&net, &case.state);
    if let Some(Change { edition, what, name, refusal }) = case.change {
        if let Some(refusal) = refusal.filter(|&refusal| read != Err(refusal)) {
            return Err(format!("refusal {refusal} is due to a {what} with {name}, and the reference answers {read:?}"));
        }
        met.count(of(what, Kind::With(name)).when(in_edition(edition)));
    }
    let state = match read {
        Ok(state) => state,
        Err(refusal) => return Ok(Expected { fresh, ..refused(refusal) }),
    };
    met.count(of("state", Kind::Size(case.state.len(), "bytes")).when(in_edition(state.edition)));
    count_head_count(&net, &state, &case.places, case.tokens, met);
    count_older(&net, &state, met);
    count_sparse(&net, &state, met);
    count_after(&net, &state, case.event, met);
    count_holding(&net, &state, case.event, met);
    Ok(Expected {
        fresh,
        record: reference::record(&net, &state, case.event).map(|after| [write_state(&net, &after)]),
        judge: match reference::judge(&net, &state, case.event) {
            Ok(reference::Verdict::Allow) => Answer::Verdict(yarrowbeam::Verdict::Allow),
            Ok(reference::Verdict::Hold(limit)) => Answer::Verdict(yarrowbeam::Verdict::Hold(limit)),
            Err(refusal) => Answer::Refused(refusal),
        },
        known: Answer::Known(reference::known(&net, &state)),
        count: reference::count(&net, &state, &case.places, case.tokens)
            .map(|(net, state)| [write_description(&net), write_state(&net, &state)]),
        older: reference::older(&state).map(|bytes| [bytes]),
        dense: Ok([reference::dense(&state)]),
        sparse: Ok([reference::sparse(&net, &state)]),
        read: Some((net, state)),
    })
}

/// Bytes that are lent to a call, inside a larger array without a pattern, and a copy of all of it.
struct Lent {
    all: Vec<u8>,
    copy: Vec<u8>,
}

/// The bytes on each side of those that are lent.
const GUARD: usize = 32;

impl Lent {
    fn new(bytes: &[u8], numbers: &mut Numbers) -> Lent {
        let all = [&numbers.bytes(GUARD)[..], bytes, &numbers.bytes(GUARD)].concat();
        Lent { copy: all.clone(), all }
    }

    fn bytes(&self) -> &[u8] {
        &self.all[GUARD..self.all.len() - GUARD]
    }

    fn bytes_mut(&mut self) -> &mut [u8] {
        let end = self.all.len() - GUARD;
        &mut self.all[GUARD..end]
    }

    /// Is everything as it was, but for these first bytes of what is lent?
    fn has(&self, first: &[u8]) -> bool {
        let (all, copy) = (black_box(&self.all[..]), black_box(&self.copy[..]));
        let end = GUARD + first.len();
        all[..GUARD] == copy[..GUARD] && all[GUARD..end] == *first && all[end..] == copy[end..]
    }
}

/// An output: the name under which its rooms are counted, and the length of the largest.
type Output = (&'static str, usize);

/// Makes every call and compares its answer and all bytes with what the reference says; the first difference, in words.
pub fn compare(case: &Case, numbers: &mut Numbers, met: &mut Met<Of>) -> Result<(), String> {
    let expected = expected(case, met)?;
    let inputs = [&case.description, &case.state, &case.places].map(|bytes| Lent::new(bytes, numbers));
    let [d, s, places] = inputs.each_ref().map(Lent::bytes);
    let mut whens = expected.read.as_ref().map_or_else(Vec::new, |(net, state)| whens(net, state));
    whens.extend([(AFTER_COUNT, case.counted), (AFTER_ONE, case.counted_one)].iter().filter(|when| when.1).map(|when| when.0));
    whens.extend(in_edition_of(s));
    let mut calls = Calls { inputs: &inputs, whens, numbers, met };
    let both = [("count's description", LARGEST_DESCRIPTION), ("count's state", LARGEST_STATE)];
    calls.writes("fresh", [("fresh", LARGEST_STATE)], expected.fresh, |[out]| {
        yarrowbeam::fresh(d, out).map(|length| [length])
    })?;
    calls.writes("record", [("record", LARGEST_STATE)], expected.record, |[out]| {
        yarrowbeam::record(d, s, case.event, out).map(|length| [length])
    })?;
    calls.answers("judge", &expected.judge, Answer::of(yarrowbeam::judge(d, s, case.event), Answer::Verdict))?;
    calls.answers("known", &expected.known, Answer::of(yarrowbeam::known(d, s), Answer::Known))?;
    calls.writes("count", both, expected.count, |[described, out]| {
        yarrowbeam::count(d, s, places, case.tokens, described, out).map(|(description, state)| [description, state])
    })?;
    calls.writes("older", [("older", LARGEST_STATE)], expected.older, |[out]| {
        yarrowbeam::older(d, s, out).map(|length| [length])
    })?;
    calls.writes("dense", [("dense", LARGEST_STATE)], expected.dense, |[out]| {
        yarrowbeam::dense(d, s, out).map(|length| [length])
    })?;
    calls.writes("sparse", [("sparse", LARGEST_STATE)], expected.sparse, |[out]| {
        yarrowbeam::sparse(d, s, out).map(|length| [length])
    })?;
    let Some((net, state)) = expected.read else { return Ok(()) };
    editions::compare(case, state.edition)?;
    older::compare(case, &net, &state)
}

struct Calls<'a> {
    inputs: &'a [Lent; 3],
    /// When the calls are made, for what is counted once more then.
    whens: Vec<&'static str>,
    numbers: &'a mut Numbers,
    met: &'a mut Met<Of>,
}

impl Calls<'_> {
    fn count(&mut self, kind: Of) {
        self.met.count(kind);
        self.whens.iter().for_each(|when| self.met.count(kind.when(when)));
    }

    /// A call has answered: is it what the reference says, and are the inputs as they were?
    fn answers(&mut self, call: &'static str, expected: &Answer, answered: Answer) -> Result<(), String> {
        if answered != *expected {
            return Err(format!("{call} answered {answered:?}, the reference {expected:?}"));
        }
        if !self.inputs.iter().all(|input| input.has(&[])) {
            return Err(format!("{call} changed its inputs"));
        }
        self.count(of(call, expected.kind()));
        Ok(())
    }

    /// Some room for an output that gets so many bytes.
    fn room(&mut self, length: usize, largest: usize) -> usize {
        match self.numbers.within(1, 8) {
            1 => 0,
            2 => length - 1,
            3 => self.numbers.below(length),
            4 => length + self.numbers.below(40),
            5 => largest,
            _ => length,
        }
    }

    /// A call that writes is made with some room for each output; all outputs are as they were unless there is room for all.
    fn writes<const N: usize>(
        &mut self,
        call: &'static str,
        outputs: [Output; N],
        expected: Written<N>,
        make: impl FnOnce([&mut [u8]; N]) -> Result<[usize; N], Refusal>,
    ) -> Result<(), String> {
        // Where nothing is to be written, the rooms are as if for the state of the pool of three.
        let lengths = expected.as_ref().map_or([7; N], |written| written.each_ref().map(Vec::len));
        let rooms: [usize; N] = std::array::from_fn(|i| self.room(lengths[i], outputs[i].1));
        let short: [bool; N] = std::array::from_fn(|i| rooms[i] < lengths[i]);
        if expected.is_ok() {
            for i in 0..N {
                self.met.count(of(outputs[i].0, Kind::Room(Room::of(rooms[i], lengths[i]))));
                self.count(of(outputs[i].0, Kind::Size(lengths[i], "bytes")));
            }
            for (name, _) in SHORT.iter().filter(|(_, which)| short[..] == which[..]) {
                self.met.count(of(call, Kind::With(name)));
            }
        }
        if let (Err(refusal), true) = (&expected, rooms == [0; N]) {
            self.met.count(of(call, Kind::RefusedInNoRoom(*refusal)));
        }
        let expected = expected.and_then(|written| if short == [false; N] { Ok(written) } else { Err(13) });
        let answer = match &expected {
            Ok(_) => Answer::Wrote(lengths.to_vec()),
            Err(refusal) => Answer::Refused(*refusal),
        };
        let mut lent = rooms.map(|room| Lent::new(&self.numbers.bytes(room), self.numbers));
        let answered = Answer::of(make(lent.each_mut().map(Lent::bytes_mut)), |lengths| Answer::Wrote(lengths.to_vec()));
        self.answers(call, &answer, answered).map_err(|words| format!("{words}; the rooms were {rooms:?}"))?;
        for (i, out) in lent.iter().enumerate() {
            if !out.has(expected.as_ref().map_or(&[], |written| &written[i])) {
                let [before, after] = [&out.copy, &out.all].map(|bytes| hex(bytes));
                return Err(format!("{call} wrote other bytes; output {i} with its guards\nbefore {before}\nafter  {after}"));
            }
        }
        Ok(())
    }
}
