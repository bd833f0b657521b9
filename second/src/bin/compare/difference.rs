//! Finding the record that two outputs differ at, and saying so.

use std::path::Path;

use second::print;
use second::trace::{Place, Trace};

use crate::program::{self, Feed};

/// Two outputs for one input, each with the name of who printed it.
pub struct Pair<'a> {
    pub left: (&'a str, &'a str),
    pub right: (&'a str, &'a str),
}

impl Pair<'_> {
    pub fn equal(&self) -> bool {
        self.left.1 == self.right.1
    }

    /// The number of the first line, from 0, that isn't the same in both.
    fn first_difference(&self) -> usize {
        let (mut left, mut right) = (self.left.1.lines(), self.right.1.lines());
        let mut number = 0;
        loop {
            match (left.next(), right.next()) {
                (Some(one), Some(other)) if one == other => number += 1,
                _ => return number,
            }
        }
    }

    fn answers(&self, number: usize) -> String {
        let line = |(name, printed): (&str, &str)| {
            let line = printed.lines().nth(number).unwrap_or("(nothing more)");
            format!("{name}: {line}\n")
        };
        line(self.left) + &line(self.right)
    }
}

fn told(subject: &str, place: Option<&Place>, answers: &str) -> String {
    let record = match place {
        Some(place) => format!("record {} at {}: {}\n", place.number, place.offset, place.text),
        None => "no record\n".to_string(),
    };
    format!("{subject}\n{record}{answers}")
}

/// Outputs of `ingress`: each line answers a record.
pub fn in_answers(subject: &str, trace: &Trace, pair: &Pair) -> Result<(), String> {
    if pair.equal() {
        return Ok(());
    }
    let number = pair.first_difference();
    let line = trace.lines.get(number).or(trace.lines.last());
    Err(told(subject, line.map(|line| &line.place), &pair.answers(number)))
}

/// Outputs of `records`: each line is a record.
pub fn in_records(subject: &str, trace: &Trace, pair: &Pair) -> Result<(), String> {
    if pair.equal() {
        return Ok(());
    }
    let number = pair.first_difference();
    let place = trace.places.get(number).or(trace.places.last());
    Err(told(subject, place, &pair.answers(number)))
}

/// Outputs of `report`, which say nothing of records: the shortest part of
/// the input is sought that the program reports otherwise.
pub fn in_report(
    subject: &str,
    trace: &Trace,
    pair: &Pair,
    program: &Path,
    input: &[u8],
) -> Result<(), String> {
    if pair.equal() {
        return Ok(());
    }
    for (place, next) in trace.places.iter().zip(trace.places.iter().skip(1)) {
        let part = &input[..next.offset];
        let (theirs, ours) = (program::run(program, part, Feed::AtOnce)?, print::report(part));
        let shorter = Pair { left: (pair.left.0, &theirs), right: (pair.right.0, &ours) };
        if !shorter.equal() {
            let answers = shorter.answers(shorter.first_difference());
            return Err(told(subject, Some(place), &answers));
        }
    }
    Err(told(subject, trace.places.last(), &pair.answers(pair.first_difference())))
}
