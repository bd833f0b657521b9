//! ATS schedulers and their groups.

use crate::fields::{BURST_MAX, ELIGIBILITY_MAX, RATE_MAX, SPAN_MAX, TIME_MAX};
use crate::refusal::Refusal;
use crate::tokens::{Octets, Rate, Tokens};

#[derive(Clone, Copy, Debug, PartialEq, Eq)]
pub struct Group {
    pub residence: u32,
    /// The eligibility time the group gave last; 0 at first.
    pub last: u64,
}

#[derive(Clone, Copy, Debug, PartialEq, Eq)]
pub struct Scheduler {
    pub group: u8,
    pub rate: Rate,
    pub burst: Octets,
    /// What the bucket held at `last`, after that frame.
    pub bucket: Tokens,
    /// The eligibility time this scheduler gave last; 0 if none.
    pub last: u64,
}

impl Scheduler {
    /// A scheduler with a full bucket.
    pub fn new(group: u8, rate: Rate, burst: Octets) -> Scheduler {
        Scheduler { group, rate, burst, bucket: Tokens::of(burst), last: 0 }
    }

    /// What the bucket holds at a time not before `last`.
    fn holds_at(&self, time: u64) -> Tokens {
        let grown = Tokens::grown(self.rate, time - self.last);
        self.bucket.plus(grown).min(Tokens::of(self.burst))
    }

    /// The first whole nanosecond from `last` on at which the bucket holds
    /// the tokens, which are at most the burst.
    fn first_holding(&self, tokens: Tokens) -> u128 {
        let missing = Tokens(tokens.0.saturating_sub(self.bucket.0));
        u128::from(self.last) + missing.nanoseconds_to_grow(self.rate)
    }
}

/// The step: gives the frame's eligibility time and moves scheduler and
/// group, or gives none (residence exceeded) and leaves both. A number out of
/// range, a bucket or a length above the burst is refused with 3.
pub fn step(
    scheduler: &mut Scheduler,
    group: &mut Group,
    arrival: u64,
    length: Octets,
) -> Result<Option<u64>, Refusal> {
    if !in_range(scheduler, group, arrival, length) {
        return Err(Refusal::OutOfRange);
    }
    let tokens = Tokens::of(length);
    let eligibility =
        scheduler.first_holding(tokens).max(u128::from(arrival)).max(u128::from(group.last));
    let limit = arrival + u64::from(group.residence);
    if eligibility > u128::from(limit) {
        return Ok(None);
    }
    let eligibility = eligibility as u64;
    scheduler.bucket = scheduler.holds_at(eligibility).minus(tokens);
    scheduler.last = eligibility;
    group.last = eligibility;
    Ok(Some(eligibility))
}

fn in_range(scheduler: &Scheduler, group: &Group, arrival: u64, length: Octets) -> bool {
    (1..=RATE_MAX).contains(&scheduler.rate.0)
        && (1..=BURST_MAX).contains(&u64::from(scheduler.burst.0))
        && (1..=SPAN_MAX).contains(&u64::from(group.residence))
        && arrival <= TIME_MAX
        && scheduler.last <= ELIGIBILITY_MAX
        && group.last <= ELIGIBILITY_MAX
        && scheduler.bucket <= Tokens::of(scheduler.burst)
        && length.0 <= scheduler.burst.0
}
