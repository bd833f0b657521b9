//! Running one of the programs that are compared.

use std::io::{Read, Write};
use std::path::Path;
use std::process::{ChildStdin, Command, Stdio};
use std::thread;
use std::time::Duration;

/// How a program gets its input.
#[derive(Clone, Copy, PartialEq, Eq)]
pub enum Feed {
    AtOnce,
    /// A few octets at a time, so that most records are cut where a read ends.
    InPieces,
}

impl Feed {
    // A program that stops at a refusal needn't read the rest, so a write that
    // fails is no fault.
    fn write(self, mut to: ChildStdin, input: &[u8]) {
        if self == Feed::AtOnce {
            drop(to.write_all(input));
            return;
        }
        let mut left = input;
        while !left.is_empty() {
            // 1 to 29 octets, none of them the length of every record
            let (piece, rest) = left.split_at(left.len().min(1 + left.len() * 7 % 29));
            if to.write_all(piece).is_err() {
                return;
            }
            thread::sleep(Duration::from_micros(50));
            left = rest;
        }
    }
}

/// What the program prints for an input. How it ends is not looked at, but
/// for a signal: no document says what its status is at a refusal.
pub fn run(program: &Path, input: &[u8], feed: Feed) -> Result<String, String> {
    let fault = |what: String| format!("{}: {what}", program.display());
    let mut child = Command::new(program)
        .stdin(Stdio::piped())
        .stdout(Stdio::piped())
        .spawn()
        .map_err(|error| fault(error.to_string()))?;
    let to = child.stdin.take().expect("a pipe");
    let mut from = child.stdout.take().expect("a pipe");
    let mut printed = Vec::new();
    let read = thread::scope(|scope| {
        scope.spawn(move || feed.write(to, input));
        from.read_to_end(&mut printed)
    });
    read.map_err(|error| fault(error.to_string()))?;
    let status = child.wait().map_err(|error| fault(error.to_string()))?;
    match status.code() {
        Some(_) => Ok(String::from_utf8_lossy(&printed).into_owned()),
        None => Err(fault(format!("ended by a signal ({status})"))),
    }
}

/// Runs several programs at once on the same input; one not given prints
/// nothing that is looked at.
pub fn run_all<const N: usize>(
    programs: [Option<&Path>; N],
    input: &[u8],
    feed: Feed,
) -> Result<[Option<String>; N], String> {
    let outcomes = thread::scope(|scope| {
        let running =
            programs.map(|program| program.map(|program| scope.spawn(move || run(program, input, feed))));
        running.map(|running| running.map(|thread| thread.join().expect("a thread that ends")))
    });
    let mut printed = [const { None }; N];
    for (place, outcome) in printed.iter_mut().zip(outcomes) {
        *place = outcome.transpose()?;
    }
    Ok(printed)
}
