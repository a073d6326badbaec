//! Compares every call of the library with the reference: `differential [CASES [SEED]]`.
//!
//! A case is a description, a state, an event and a head count; each of the eight calls is made with them. Prints how often each
//! answer, room and size was met; exits with 1 at the first difference, or where one of them was never met.

mod compare;
mod due;
mod editions;
mod faults;
mod head_counts;
mod kinds;
mod older;

use compare::{compare, Case};
use due::due;
use kinds::{in_edition, of, Kind, Of};
use reference::{write_description, write_state, Net, State};
use seeded::damage::damaged;
use seeded::met::Met;
use seeded::numbers::Numbers;
use seeded::{hex, nets};
use std::panic::{catch_unwind, AssertUnwindSafe};
use std::process::ExitCode;

/// The cases of one net, one after the other.
const CASES_OF_A_NET: usize = 8;

/// The list of calls that a net's cases make from fresh: the net and the state that the last accepted call left.
struct List {
    net: Net,
    state: State,
    /// How many head counts were accepted.
    counted: usize,
    /// Was the call that was accepted last a head count of one place?
    counted_one: bool,
    /// Or does it go on from a state that was given?
    from_fresh: bool,
}

impl List {
    fn new(numbers: &mut Numbers) -> List {
        let net = nets::net(numbers);
        List { state: reference::fresh(&net), net, counted: 0, counted_one: false, from_fresh: true }
    }

    /// A case at this place in the list: whole, or with faults.
    fn case(&self, numbers: &mut Numbers) -> Case {
        let events = self.net.takes.len() as u32;
        let event = match numbers.within(1, 24) {
            1 => 0,
            2 => events + 1,
            3 => numbers.next() as u32,
            _ => numbers.within(1, events),
        };
        let places = head_counts::places(&self.net, numbers);
        let tokens = head_counts::tokens(&self.state, &places, numbers);
        let mut description = write_description(&self.net);
        let mut state = write_state(&self.net, &self.state);
        let mut change = None;
        match numbers.within(1, 21) {
            1..=3 => description = damaged(&description, numbers),
            4..=5 => state = damaged(&state, numbers),
            6 => {
                description = damaged(&description, numbers);
                state = damaged(&state, numbers);
            }
            7..=8 => {
                let mut tight = self.net.clone();
                nets::tighten(&mut tight, &self.state, event, numbers);
                description = write_description(&tight);
            }
            9..=10 => state = write_state(&self.net, &nets::at_edge(&self.net, &self.state, numbers)),
            11 => {
                let length = numbers.below(20);
                let other = if numbers.one_in(2) { &mut description } else { &mut state };
                *other = if numbers.one_in(2) { Vec::new() } else { numbers.bytes(length) };
            }
            12..=14 => {
                let changed = numbers.pick(&[faults::faulty, faults::faulty, faults::replaced]);
                if let Some((made, bytes)) = changed(&self.net, &self.state, numbers) {
                    (change, state) = (Some(made), bytes);
                }
            }
            _ => (),
        }
        let (counted, counted_one) = (self.counted > 0, self.counted_one);
        Case { description, state, change, event, places, tokens, counted, counted_one }
    }

    /// The event is recorded or the head count taken, so that histories come about.
    fn go_on(&mut self, case: &Case, numbers: &mut Numbers, met: &mut Met<Of>) {
        if numbers.one_in(2) {
            if let Ok(after) = reference::record(&self.net, &self.state, case.event) {
                (self.state, self.counted_one) = (after, false);
            }
        } else if let Ok((net, state)) = reference::count(&self.net, &self.state, &case.places, case.tokens) {
            (self.net, self.state) = (net, state);
            self.counted += 1;
            self.counted_one = case.places.len() == 1;
            let kind = if self.from_fresh {
                of("list from fresh", Kind::Size(self.counted, "head counts"))
            } else {
                of("list from a given state", Kind::With("a head count"))
            };
            met.count(kind.when(in_edition(self.state.edition)));
        }
    }
}

fn run(cases: u64, seed: u64, met: &mut Met<Of>) -> Result<(), String> {
    let mut numbers = Numbers(seed);
    for first in (0..cases).step_by(CASES_OF_A_NET) {
        let mut list = List::new(&mut numbers);
        for made in (first..cases).take(CASES_OF_A_NET) {
            if numbers.one_in(if list.net.groups.len() > 30 { 2 } else { 6 }) {
                (list.state, list.from_fresh, list.counted_one) = (nets::state(&list.net, &mut numbers), false, false);
            }
            // The state is converted at times, so that lists go on in both editions.
            if numbers.one_in(2) {
                list.state.edition = nets::edition(&mut numbers);
            }
            let case = list.case(&mut numbers);
            let compared = catch_unwind(AssertUnwindSafe(|| compare(&case, &mut numbers, met)));
            compared.unwrap_or_else(|_| Err("a panic".to_string())).map_err(|difference| {
                let [description, state, places] = [&case.description, &case.state, &case.places].map(|bytes| hex(bytes));
                let (event, tokens) = (case.event, case.tokens);
                format!(
                    "case {made}: {difference}\ndescription {description}\nstate {state}\nevent {event}\n\
                     places {places}\ntokens {tokens}"
                )
            })?;
            list.go_on(&case, &mut numbers, met);
        }
    }
    Ok(())
}

fn main() -> ExitCode {
    let mut given = std::env::args().skip(1).map(|word| word.parse::<u64>());
    let (Ok(cases), Ok(seed), None) = (given.next().unwrap_or(Ok(1_000_000)), given.next().unwrap_or(Ok(1)), given.next()) else {
        eprintln!("usage: differential [CASES [SEED]]");
        return ExitCode::from(2);
    };
    println!("seed {seed}");
    let mut met = Met::default();
    if let Err(difference) = run(cases, seed, &mut met) {
        eprintln!("{difference}");
        return ExitCode::FAILURE;
    }
    let never = met.print(due());
    println!("total: {cases} cases, {} calls, no difference", 8 * cases);
    if !never.is_empty() {
        eprintln!("never met: {}", never.join(", "));
        return ExitCode::FAILURE;
    }
    ExitCode::SUCCESS
}
