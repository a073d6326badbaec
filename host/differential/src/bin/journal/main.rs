//! Compares the program `journal` with the reference: `journal [CASES [SEED [PROGRAM]]]`.
//!
//! First come a few short inputs, each cut in two at every position and into single bytes, and inputs that are longer than the
//! program's buffer; then so many seeded inputs, each cut into pieces. Prints how often each kind was met; exits with 1 at the
//! first difference, or where a kind was never met.

mod inputs;
mod kinds;
mod program;

use program::{Program, MOST_IN_PIECES};
use reference::journal::journal;
use seeded::hex;
use seeded::met::Met;
use seeded::numbers::Numbers;
use std::process::ExitCode;

/// What the reads of a case give.
enum Reads {
    /// Pieces of these lengths.
    Pieces(Vec<usize>),
    /// Pieces of these lengths, each of which comes once the line of the one before it is there.
    Turns(Vec<usize>),
    /// What a pipe has.
    Pipe,
}

impl Reads {
    fn kind(&self) -> &'static str {
        match self {
            Reads::Pieces(lengths) if lengths.len() < 2 => "one piece",
            Reads::Pieces(lengths) if lengths.iter().all(|&length| length == 1) => "a byte each",
            Reads::Pieces(lengths) if lengths.len() == 2 => "two pieces",
            Reads::Pieces(_) => "several pieces",
            Reads::Turns(_) => "a line each",
            Reads::Pipe => "a pipe",
        }
    }
}

struct Comparison {
    program: Program,
    met: Met<String>,
    cases: u64,
}

impl Comparison {
    /// Runs the program on the input and compares what it prints with what the reference does.
    fn compare(&mut self, input: &[u8], reads: Reads) -> Result<(), String> {
        let expected = journal(input);
        let printed = match &reads {
            Reads::Pieces(lengths) => self.program.in_pieces(&cut(input, lengths)),
            Reads::Turns(lengths) => self.program.by_turns(&cut(input, lengths)),
            Reads::Pipe => self.program.by_pipe(input),
        };
        let failed = match printed {
            Ok(printed) if printed == expected => None,
            Ok(printed) => Some(format!("the program printed\n{printed}")),
            Err(failed) => Some(format!("the program failed: {failed}")),
        };
        if let Some(failed) = failed {
            let pieces = match &reads {
                Reads::Pieces(lengths) | Reads::Turns(lengths) => format!(" of {lengths:?} bytes"),
                Reads::Pipe => String::new(),
            };
            let (case, kind, input) = (self.cases, reads.kind(), hex(input));
            return Err(format!("case {case}: {failed}the reference prints\n{expected}input {input}\nreads: {kind}{pieces}"));
        }
        kinds::count(input, &expected, &mut self.met);
        self.met.count(format!("reads: {}", reads.kind()));
        self.cases += 1;
        Ok(())
    }

    /// Short inputs with every split, and long ones.
    fn fixed(&mut self) -> Result<(), String> {
        for input in inputs::short() {
            self.compare(&input, Reads::Pieces(vec![1; input.len()]))?;
            self.compare(&input, Reads::Pipe)?;
            for first in 1..input.len() {
                self.compare(&input, Reads::Pieces(vec![first, input.len() - first]))?;
            }
        }
        for input in inputs::long() {
            self.compare(&input, Reads::Pipe)?;
        }
        let (input, turns) = inputs::by_turns();
        self.compare(&input, Reads::Turns(turns))
    }

    fn seeded(&mut self, cases: u64, seed: u64) -> Result<(), String> {
        let mut numbers = Numbers(seed);
        for _ in 0..cases {
            let input = inputs::seeded(&mut numbers);
            let reads = reads(input.len(), &mut numbers);
            self.compare(&input, reads)?;
        }
        Ok(())
    }
}

/// The pieces of these lengths.
fn cut<'a>(input: &'a [u8], lengths: &[usize]) -> Vec<&'a [u8]> {
    let mut left = input;
    let mut take = |&length: &usize| {
        let (piece, rest) = left.split_at(length);
        left = rest;
        piece
    };
    lengths.iter().map(&mut take).collect()
}

/// Reads that give so many bytes.
fn reads(length: usize, numbers: &mut Numbers) -> Reads {
    if length == 0 || length > MOST_IN_PIECES {
        return Reads::Pipe;
    }
    // A piece is at most so long, and there are not many more than a few hundred pieces.
    let most = match numbers.within(1, 5) {
        1 => return Reads::Pieces(vec![length]),
        2 => 1 + length / 200,
        3 => 4 + length / 50,
        4 => 1 + length / 2,
        _ => length,
    };
    let mut lengths = Vec::new();
    let mut left = length;
    while left > 0 {
        let piece = left.min(numbers.below(most) + 1);
        lengths.push(piece);
        left -= piece;
    }
    Reads::Pieces(lengths)
}

fn main() -> ExitCode {
    let given: Vec<String> = std::env::args().skip(1).collect();
    let number = |i: usize, otherwise: u64| given.get(i).map_or(Ok(otherwise), |word| word.parse::<u64>());
    let (Ok(cases), Ok(seed), 0..=3) = (number(0, 10_000), number(1, 1), given.len()) else {
        eprintln!("usage: journal [CASES [SEED [PROGRAM]]]");
        return ExitCode::from(2);
    };
    let built = concat!(env!("CARGO_MANIFEST_DIR"), "/../../target/bin/journal");
    let program = Program { path: given.get(2).map_or(built, String::as_str).into() };
    println!("seed {seed}");
    let mut comparison = Comparison { program, met: Met::default(), cases: 0 };
    if let Err(difference) = comparison.fixed().and_then(|()| comparison.seeded(cases, seed)) {
        eprintln!("{difference}");
        return ExitCode::FAILURE;
    }
    let never = comparison.met.print(kinds::due());
    println!("total: {} inputs, no difference", comparison.cases);
    if !never.is_empty() {
        eprintln!("never met: {}", never.join(", "));
        return ExitCode::FAILURE;
    }
    ExitCode::SUCCESS
}
