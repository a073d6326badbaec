//! Prints what the journal prints for its standard input.

use std::io::{stdin, stdout, Read, Result, Write};

fn main() -> Result<()> {
    let mut input = Vec::new();
    stdin().read_to_end(&mut input)?;
    stdout().write_all(reference::journal::journal(&input).as_bytes())
}
