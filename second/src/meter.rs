//! Flow meters: MEF 10.3 for one flow.

use crate::fields::{BURST_MAX, RATE_MAX, SDU_MAX, TIME_MAX};
use crate::refusal::Refusal;
use crate::tokens::{Octets, Rate, Tokens};

#[derive(Clone, Copy, Debug, PartialEq, Eq)]
pub struct MeterRecord {
    pub committed_rate: Rate,
    pub committed_burst: Octets,
    pub excess_rate: Rate,
    pub excess_burst: Octets,
    pub coupling: bool,
    pub colour_aware: bool,
    pub drop_on_yellow: bool,
    pub red_block: bool,
}

#[derive(Clone, Copy, Debug, PartialEq, Eq)]
pub enum Colour {
    Green,
    Yellow,
    Red,
}

/// A meter with its buckets, last fill and flag.
#[derive(Clone, Copy, Debug, PartialEq, Eq)]
pub struct Meter {
    pub record: MeterRecord,
    pub committed: Tokens,
    pub excess: Tokens,
    pub last_fill: u64,
    pub red: bool,
}

impl Meter {
    /// A meter with full buckets.
    pub fn new(record: MeterRecord) -> Meter {
        Meter {
            record,
            committed: Tokens::of(record.committed_burst),
            excess: Tokens::of(record.excess_burst),
            last_fill: 0,
            red: false,
        }
    }

    /// Takes a frame and gives the meter back with the colour. A number out
    /// of range is refused with 3, a time before the last fill with 9.
    pub fn take(
        self,
        time: u64,
        msdu: u16,
        drop_eligible: bool,
    ) -> Result<(Meter, Colour), Refusal> {
        if !self.in_range() || time > TIME_MAX || u64::from(msdu) > SDU_MAX {
            return Err(Refusal::OutOfRange);
        }
        if time < self.last_fill {
            return Err(Refusal::TimeGoesBack);
        }
        Ok(self.filled(time).coloured(msdu, drop_eligible))
    }

    fn in_range(&self) -> bool {
        let record = &self.record;
        let rates = [record.committed_rate, record.excess_rate];
        let bursts = [record.committed_burst, record.excess_burst];
        rates.iter().all(|rate| rate.0 <= RATE_MAX)
            && bursts.iter().all(|burst| u64::from(burst.0) <= BURST_MAX)
            && self.committed <= Tokens::of(record.committed_burst)
            && self.excess <= Tokens::of(record.excess_burst)
            && self.last_fill <= TIME_MAX
    }

    /// Fills both buckets; coupling sends what the committed one loses to the
    /// excess one, which is cut afterwards.
    fn filled(mut self, time: u64) -> Meter {
        let nanoseconds = time - self.last_fill;
        let committed = self.committed.plus(Tokens::grown(self.record.committed_rate, nanoseconds));
        let mut excess = self.excess.plus(Tokens::grown(self.record.excess_rate, nanoseconds));
        self.committed = committed.min(Tokens::of(self.record.committed_burst));
        if self.record.coupling {
            excess = excess.plus(committed.minus(self.committed));
        }
        self.excess = excess.min(Tokens::of(self.record.excess_burst));
        self.last_fill = time;
        self
    }

    fn coloured(mut self, msdu: u16, drop_eligible: bool) -> (Meter, Colour) {
        let tokens = Tokens::of(Octets(msdu.into()));
        let may_be_green = !drop_eligible || !self.record.colour_aware;
        if self.red {
            (self, Colour::Red)
        } else if may_be_green && tokens <= self.committed {
            self.committed = self.committed.minus(tokens);
            (self, Colour::Green)
        } else if tokens <= self.excess {
            self.excess = self.excess.minus(tokens);
            (self, Colour::Yellow)
        } else {
            self.red = self.record.red_block;
            (self, Colour::Red)
        }
    }
}
