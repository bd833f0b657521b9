//! Bucket arithmetic for meters and schedulers alike.
//!
//! A rate of r bits per second adds r × d / (8 × 10^9) octets in d
//! nanoseconds. Counted in parts of 1 / (8 × 10^9) octet that is r × d, a
//! whole number, so nothing is ever rounded. The largest number met here is
//! 10^10 × (2^62 + 10^9) plus two bursts, far below 2^128.

/// Bits per second.
#[derive(Clone, Copy, Debug, PartialEq, Eq)]
pub struct Rate(pub u64);

/// Octets of a burst or a length.
#[derive(Clone, Copy, Debug, PartialEq, Eq)]
pub struct Octets(pub u32);

/// Parts in one octet.
pub const PARTS: u128 = 8_000_000_000;

/// Tokens, in parts.
#[derive(Clone, Copy, Debug, PartialEq, Eq, PartialOrd, Ord)]
pub struct Tokens(pub u128);

impl Tokens {
    pub fn of(octets: Octets) -> Tokens {
        Tokens(u128::from(octets.0) * PARTS)
    }

    /// What the rate adds in that many nanoseconds.
    pub fn grown(rate: Rate, nanoseconds: u64) -> Tokens {
        Tokens(u128::from(rate.0) * u128::from(nanoseconds))
    }

    pub fn plus(self, more: Tokens) -> Tokens {
        Tokens(self.0 + more.0)
    }

    /// Needs `less` to be at most `self`.
    pub fn minus(self, less: Tokens) -> Tokens {
        Tokens(self.0 - less.0)
    }

    /// The whole nanoseconds the rate needs to add at least this; not rate 0.
    pub fn nanoseconds_to_grow(self, rate: Rate) -> u128 {
        (self.0 + u128::from(rate.0) - 1) / u128::from(rate.0)
    }
}
