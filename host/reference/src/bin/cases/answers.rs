//! What the program must say of a case.

use crate::Call;
use reference::{count, dense, fresh, judge, known, older, read_description, read_state, record, sparse};
use reference::{write_description, write_state, Net, Refusal, State, Verdict};

/// What stands after the label. A call of the observer is answered twice, on bytes and on values in memory.
pub fn said(d: &[u8], s: &[u8], call: Call, event: u32, room: u32) -> String {
    match call {
        Call::Describe => words(described(d)),
        Call::Changed => changed(d, event as usize),
        _ => {
            let answer = words(answered(d, s, call, event, room));
            format!("{answer} /{answer}")
        }
    }
}

/// What stands after the label of a head count, which is answered on bytes alone: the description and the state.
pub fn counted(d: &[u8], s: &[u8], places: &[u8], tokens: u32, rooms: [u32; 2]) -> String {
    let answer = || {
        let net = read_description(d)?;
        let (net, state) = count(&net, &read_state(&net, s)?, places, tokens)?;
        Ok(format!("{},{}", fitting(&write_description(&net), rooms[0])?, written(&net, &state, rooms[1])?))
    };
    words(answer())
}

/// What stands after the label of a call that writes the same state again, which is answered on bytes alone.
pub fn rewritten(d: &[u8], s: &[u8], call: Call, room: u32) -> String {
    let answer = || {
        let net = read_description(d)?;
        let state = read_state(&net, s)?;
        let bytes = match call {
            Call::Older => older(&state)?,
            Call::Dense => dense(&state),
            _ => sparse(&net, &state),
        };
        fitting(&bytes, room)
    };
    words(answer())
}

fn words(answer: Result<String, Refusal>) -> String {
    answer.unwrap_or_else(|refusal| format!(" refused {refusal}"))
}

fn described(d: &[u8]) -> Result<String, Refusal> {
    let net = read_description(d)?;
    assert_eq!(write_description(&net), d);
    let sizes = format!("{} {} {} {}", net.places(), net.takes.len(), net.groups.len(), net.limits.len());
    Ok(format!(" net {sizes}, written back in {}", d.len()))
}

/// For each value at the position 0 where the bytes are read, else the refusal.
fn changed(d: &[u8], at: usize) -> String {
    let digit = |value: u8| {
        let mut bytes = d.to_vec();
        bytes[at] = value;
        char::from_digit(read_description(&bytes).err().unwrap_or(0), 10).unwrap()
    };
    format!(" {}", (0..=255).map(digit).collect::<String>())
}

fn answered(d: &[u8], s: &[u8], call: Call, event: u32, room: u32) -> Result<String, Refusal> {
    let net = read_description(d)?;
    if let Call::Fresh = call {
        return written(&net, &fresh(&net), room);
    }
    let state = read_state(&net, s)?;
    match call {
        Call::Record => written(&net, &record(&net, &state, event)?, room),
        Call::Judge => Ok(match judge(&net, &state, event)? {
            Verdict::Allow => " allow".to_string(),
            Verdict::Hold(limit) => format!(" hold {limit}"),
        }),
        _ => Ok(if known(&net, &state) { " yes" } else { " no" }.to_string()),
    }
}

fn written(net: &Net, state: &State, room: u32) -> Result<String, Refusal> {
    fitting(&write_state(net, state), room)
}

/// The bytes, where there is room for them.
fn fitting(bytes: &[u8], room: u32) -> Result<String, Refusal> {
    if bytes.len() > room as usize {
        return Err(13);
    }
    Ok(bytes.iter().map(|byte| format!(" {byte:02x}")).collect())
}
