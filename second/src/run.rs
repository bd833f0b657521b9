//! A run over a whole input: records one after the other, from a fresh
//! bridge, until no octet is left or a record is refused.

use crate::bridge::{Bridge, Outcome, Verdict};
use crate::fields::FILTERS;
use crate::filter::Filter;
use crate::refusal::Refusal;

pub struct Run<'a> {
    pub bridge: Bridge,
    pub table: [Filter; FILTERS],
    /// The octets that no record has taken yet.
    pub rest: &'a [u8],
    /// The octets that were taken.
    pub offset: usize,
    /// The records that were taken, and the arrivals among them.
    pub taken: u64,
    pub arrivals: u64,
}

/// How a run ends.
#[derive(Clone, Copy, Debug, PartialEq, Eq)]
pub enum End {
    NoOctetLeft,
    Refused(Refusal),
}

impl<'a> Run<'a> {
    pub fn new(input: &'a [u8]) -> Run<'a> {
        Run {
            bridge: Bridge::new(),
            table: Filter::table(),
            rest: input,
            offset: 0,
            taken: 0,
            arrivals: 0,
        }
    }

    /// Offers the next record: an arrival's verdict if it was one, or the end.
    pub fn step(&mut self) -> Result<Option<Verdict>, End> {
        if self.rest.is_empty() {
            return Err(End::NoOctetLeft);
        }
        let answer = self.bridge.take(&mut self.table, self.rest);
        self.rest = &self.rest[answer.used..];
        self.offset += answer.used;
        match answer.outcome {
            Outcome::Refused(refusal) => return Err(End::Refused(refusal)),
            Outcome::Taken => self.taken += 1,
            Outcome::Arrival(_) => {
                self.taken += 1;
                self.arrivals += 1;
            }
        }
        Ok(match answer.outcome {
            Outcome::Arrival(verdict) => Some(verdict),
            _ => None,
        })
    }
}
