//! The program that is compared: what it prints for an input that comes in pieces, or through a pipe.

use std::io::{self, BufRead, BufReader, Write};
use std::os::fd::OwnedFd;
use std::os::unix::net::UnixDatagram;
use std::path::PathBuf;
use std::process::{Child, Command, Output, Stdio};
use std::thread;
use std::time::Duration;

/// The most bytes of an input that comes in pieces: a piece that is longer than a read asks for would be cut off, and the
/// program reads into a buffer of 32,768 bytes after what it holds.
pub const MOST_IN_PIECES: usize = 30_000;

/// A read that waits so long fails: the program has asked for more than there is.
const PATIENCE: Duration = Duration::from_secs(20);

/// An empty piece is the end of the input, which a program may ask for again.
const ENDS: [&[u8]; 4] = [&[]; 4];

pub struct Program {
    pub path: PathBuf,
}

impl Program {
    fn start(&self, input: Stdio) -> io::Result<Child> {
        Command::new(&self.path).stdin(input).stdout(Stdio::piped()).stderr(Stdio::piped()).spawn()
    }

    /// Starts it with a datagram socket as its standard input: each piece that is sent there is one read.
    fn start_in_pieces(&self) -> io::Result<(Child, UnixDatagram)> {
        let (ours, its) = UnixDatagram::pair()?;
        its.set_read_timeout(Some(PATIENCE))?;
        Ok((self.start(OwnedFd::from(its).into())?, ours))
    }

    /// What it prints where each read gives one of the pieces, and then the end.
    pub fn in_pieces(&self, pieces: &[&[u8]]) -> Result<String, String> {
        let run = || {
            let (child, input) = self.start_in_pieces()?;
            thread::scope(|scope| {
                // Sending fails where the program has ended; whether it should have, its output tells.
                scope.spawn(move || send(&input, pieces).and_then(|()| send(&input, &ENDS)));
                child.wait_with_output()
            })
        };
        printed(run())
    }

    /// What it prints where the input is a pipe.
    pub fn by_pipe(&self, input: &[u8]) -> Result<String, String> {
        let run = || {
            let mut child = self.start(Stdio::piped())?;
            let mut pipe = child.stdin.take().expect("a pipe");
            thread::scope(|scope| {
                scope.spawn(move || pipe.write_all(input));
                child.wait_with_output()
            })
        };
        printed(run())
    }

    /// What it prints where each piece comes only once the line for the one before it is there.
    pub fn by_turns(&self, pieces: &[&[u8]]) -> Result<String, String> {
        let mut lines = String::new();
        let mut run = || {
            let (mut child, input) = self.start_in_pieces()?;
            let mut output = BufReader::new(child.stdout.take().expect("a pipe"));
            for piece in pieces {
                input.send(piece)?;
                output.read_line(&mut lines)?;
            }
            // Sending fails where the program has ended after the first of these.
            send(&input, &ENDS).ok();
            child.wait_with_output()
        };
        printed(run()).map(|rest| lines + &rest)
    }
}

fn send(input: &UnixDatagram, pieces: &[&[u8]]) -> io::Result<()> {
    pieces.iter().try_for_each(|piece| input.send(piece).map(drop))
}

/// What it printed, where it ended well and told nothing on standard error.
fn printed(ran: io::Result<Output>) -> Result<String, String> {
    let output = ran.map_err(|error| format!("it could not be run: {error}"))?;
    let [out, err] = [&output.stdout, &output.stderr].map(|bytes| String::from_utf8_lossy(bytes).into_owned());
    if !output.status.success() || !err.is_empty() {
        return Err(format!("{}; it printed\n{out}and on standard error\n{err}", output.status));
    }
    Ok(out)
}
