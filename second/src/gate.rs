//! Stream gates: the record, its control list and the octets left.

use crate::fields::{ENTRIES, NO_OCTET_MAXIMUM};

#[derive(Clone, Copy, Debug, PartialEq, Eq)]
pub struct GateRecord {
    pub open: bool,
    pub ipv: u8,
    pub invalid_receive_block: bool,
    pub octets_block: bool,
    pub base_time: u64,
}

#[derive(Clone, Copy, Debug, PartialEq, Eq)]
pub struct Entry {
    pub open: bool,
    pub ipv: u8,
    pub interval: u32,
    pub octet_maximum: u32,
}

/// One interval of one cycle: two alike entries, or the same entry in the
/// next cycle, are different intervals and each has its octets.
#[derive(Clone, Copy, Debug, PartialEq, Eq)]
struct Interval {
    cycle: u64,
    entry: usize,
}

/// What a gate does at some time.
#[derive(Clone, Copy, Debug, PartialEq, Eq)]
struct InForce {
    open: bool,
    ipv: u8,
    /// The interval and its octets left, where there is a limit.
    limit: Option<(Interval, u32)>,
}

/// Why a gate drops a frame.
#[derive(Clone, Copy, Debug, PartialEq, Eq)]
pub enum GateDrop {
    FlagStands,
    Closed,
    OctetsExceeded,
}

/// A gate that is set up or at least has entries; entries may come first.
#[derive(Clone, Debug, Default, PartialEq, Eq)]
pub struct Gate {
    pub record: Option<GateRecord>,
    entries: Vec<Entry>,
    /// The last interval with a limit in which a frame passed, and what it left.
    octets_left: Option<(Interval, u32)>,
    pub invalid_receive: bool,
    pub octets: bool,
}

impl Gate {
    pub fn has_entries(&self) -> bool {
        !self.entries.is_empty()
    }

    pub fn is_full(&self) -> bool {
        self.entries.len() == ENTRIES
    }

    pub fn add(&mut self, entry: Entry) {
        self.entries.push(entry);
    }

    /// Takes a frame at a gate that is set up: the IPV in force, or a drop.
    pub fn take(&mut self, time: u64, msdu: u16) -> Result<u8, GateDrop> {
        let record = self.record.expect("a gate that is set up");
        if self.invalid_receive || self.octets {
            return Err(GateDrop::FlagStands);
        }
        let now = self.in_force(record, time);
        if !now.open {
            self.invalid_receive = record.invalid_receive_block;
            return Err(GateDrop::Closed);
        }
        if let Some((interval, left)) = now.limit {
            match left.checked_sub(msdu.into()) {
                Some(after) => self.octets_left = Some((interval, after)),
                None => {
                    self.octets = record.octets_block;
                    return Err(GateDrop::OctetsExceeded);
                }
            }
        }
        Ok(now.ipv)
    }

    fn in_force(&self, record: GateRecord, time: u64) -> InForce {
        if self.entries.is_empty() || time < record.base_time {
            return InForce { open: record.open, ipv: record.ipv, limit: None };
        }
        let interval = self.interval_at(time - record.base_time);
        let entry = self.entries[interval.entry];
        let limit = (entry.octet_maximum != NO_OCTET_MAXIMUM)
            .then(|| (interval, self.left_in(interval, entry.octet_maximum)));
        InForce { open: entry.open, ipv: entry.ipv, limit }
    }

    /// The interval that owns the nanosecond this long after base time.
    fn interval_at(&self, since_base: u64) -> Interval {
        let cycle_time: u64 = self.entries.iter().map(|entry| u64::from(entry.interval)).sum();
        let cycle = since_base / cycle_time;
        let mut rest = since_base % cycle_time;
        let mut entry = 0;
        while rest >= u64::from(self.entries[entry].interval) {
            rest -= u64::from(self.entries[entry].interval);
            entry += 1;
        }
        Interval { cycle, entry }
    }

    fn left_in(&self, interval: Interval, maximum: u32) -> u32 {
        match self.octets_left {
            Some((same, left)) if same == interval => left,
            _ => maximum,
        }
    }
}
