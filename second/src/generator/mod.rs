//! A seeded generator of streams of records: valid ones, ones dense in
//! collisions, ones at the edges of every range, and damaged ones.

mod damage;
mod setup;
mod traffic;

use crate::fields::{self, Kind};
use crate::random::Random;
use crate::reader;

pub use damage::Damage;

#[derive(Clone, Copy, Debug, PartialEq, Eq)]
pub enum Mode {
    /// Values from all over their ranges.
    Valid,
    /// Few identifiers, tiny buckets, equal times, the edges of intervals.
    Dense,
    /// The ends of every range, times near 0 and 2^62.
    Edge,
    /// One of the others, spoiled.
    Damaged,
}

impl Mode {
    /// The mode of a stream by its number; damage takes two in five, since a
    /// refusal ends its stream and so is seen only once in it.
    pub fn of_stream(stream: u64) -> Mode {
        [Mode::Valid, Mode::Dense, Mode::Edge, Mode::Damaged, Mode::Damaged][(stream % 5) as usize]
    }

    pub fn named(name: &str) -> Option<Mode> {
        let modes = [Mode::Valid, Mode::Dense, Mode::Edge, Mode::Damaged];
        modes.into_iter().find(|mode| mode.name() == name)
    }

    pub fn name(self) -> &'static str {
        match self {
            Mode::Valid => "valid",
            Mode::Dense => "dense",
            Mode::Edge => "edge",
            Mode::Damaged => "damaged",
        }
    }
}

/// A record as its kind and values, in range or not.
#[derive(Clone)]
pub struct Plain {
    pub kind: &'static Kind,
    pub values: Vec<u64>,
}

impl Plain {
    pub fn new(number: u8, values: &[u64]) -> Plain {
        let kind = fields::kind(number).expect("a kind");
        Plain { kind, values: values.to_vec() }
    }

    pub fn is(&self, number: u8) -> bool {
        self.kind.number == number
    }

    pub fn get(&self, field: &str) -> u64 {
        self.values[self.kind.place(field)]
    }

    pub fn set(&mut self, field: &str, value: u64) {
        let place = self.kind.place(field);
        self.values[place] = value;
    }

    pub fn octets(&self) -> Vec<u8> {
        reader::octets(self.kind, &self.values)
    }
}

/// The octets of records one after the other.
pub fn octets(records: &[Plain]) -> Vec<u8> {
    records.iter().flat_map(Plain::octets).collect()
}

/// A stream of a seed, in the mode that goes with its number or in another.
pub fn stream(seed: u64, stream: u64, mode: Option<Mode>) -> Vec<u8> {
    let mut random = Random::of_stream(seed, stream);
    match mode.unwrap_or(Mode::of_stream(stream)) {
        Mode::Damaged => damage::damaged(&mut random, Damage::of_stream(stream)),
        mode => octets(&sound(&mut random, mode)),
    }
}

/// A stream that no program reads at once: thousands of records, every other
/// one cut off within 17 octets of its end.
pub fn long(seed: u64, stream: u64) -> Vec<u8> {
    let mut random = Random::of_stream(seed, stream);
    let mode = [Mode::Valid, Mode::Dense, Mode::Edge][(stream % 3) as usize];
    let mut input = octets(&sized(&mut random, mode, (8_000, 12_000)));
    if stream % 2 == 1 {
        let cut = random.between(1, 17) as usize;
        input.truncate(input.len() - cut);
    }
    input
}

/// The records of a stream without damage: all of them are taken.
pub fn sound(random: &mut Random, mode: Mode) -> Vec<Plain> {
    sized(random, mode, (40, 240))
}

fn sized(random: &mut Random, mode: Mode, count: (u64, u64)) -> Vec<Plain> {
    let mut records = setup::setup(random, mode);
    let traffic = traffic::traffic(random, mode, &records, count);
    records.extend(traffic);
    records
}
