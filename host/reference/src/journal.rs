//! The journal: a description and events in, a line for each event out.

use crate::number::Bytes;
use crate::{fresh, judge, read_description, record, Verdict};

/// What the journal prints for its input.
pub fn journal(input: &[u8]) -> String {
    let mut out = String::new();
    if let Err(refusal) = run(input, &mut out) {
        out.push_str(&format!("refused {refusal}\n"));
    }
    out
}

fn run(input: &[u8], out: &mut String) -> Result<(), u32> {
    let mut bytes = Bytes::new(input);
    let length = bytes.number()? as usize;
    if length > bytes.left.len() {
        return Err(1);
    }
    let (description, events) = bytes.left.split_at(length);
    let net = read_description(description)?;
    let mut state = fresh(&net);
    let mut events = Bytes::new(events);
    while !events.left.is_empty() {
        let event = events.number()?;
        let (word, number) = match judge(&net, &state, event) {
            Ok(Verdict::Allow) => ("allow", 0),
            Ok(Verdict::Hold(limit)) => ("hold", limit),
            Err(refusal) => ("refused", refusal),
        };
        if let Ok(next) = record(&net, &state, event) {
            state = next;
        }
        let mut line = format!("{event} {word} {number}");
        for n in state.estimates.iter().chain(&state.unplaced) {
            line.push_str(&format!(" {n}"));
        }
        out.push_str(&line);
        out.push('\n');
    }
    Ok(())
}

#[cfg(test)]
mod tests {
    use super::*;
    use crate::{read_state, write_description, write_state, POOL};

    #[test]
    fn pool() {
        let net = read_description(&POOL).unwrap();
        assert_eq!(write_description(&net), POOL);
        let state = fresh(&net);
        assert_eq!(write_state(&net, &state), [0x01, 0x03, 0x00, 0x00, 0x00, 0x01, 0x03]);
        assert_eq!(read_state(&net, &write_state(&net, &state)), Ok(state.clone()));
        assert_eq!(judge(&net, &state, 2), Ok(Verdict::Hold(1)));
        assert_eq!(judge(&net, &state, 3), Ok(Verdict::Allow));
        let mut input = vec![POOL.len() as u8];
        input.extend_from_slice(&POOL);
        input.extend_from_slice(&[1, 1, 2, 1, 1]);
        let expected = "1 allow 0 0 1 0 2\n1 allow 0 0 2 0 1\n2 allow 0 0 1 1 1\n1 allow 0 0 2 1 0\n1 refused 11 0 2 1 0\n";
        assert_eq!(journal(&input), expected);
    }
}
