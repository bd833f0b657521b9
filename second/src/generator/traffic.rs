//! Random arrivals and clears for a setup.

use super::setup::{handle, number};
use super::{Mode, Plain};
use crate::fields::{
    ANY_HANDLE, KIND_ARRIVAL, KIND_CLEAR, KIND_FILTER, KIND_GATE, KIND_GATE_ENTRY, KIND_METER,
    NO_PRIORITY, SDU_MAX, TIME_MAX,
};
use crate::random::Random;

/// Arrivals and clears, all of which are taken; at least and at most so many.
pub fn traffic(
    random: &mut Random,
    mode: Mode,
    setup: &[Plain],
    (least, most): (u64, u64),
) -> Vec<Plain> {
    let now = first_time(random, mode);
    let count = random.between(least, most);
    let mut traffic = Traffic { random, mode, setup, now };
    (0..count).map(|_| traffic.record()).collect()
}

fn first_time(random: &mut Random, mode: Mode) -> u64 {
    let near_end = TIME_MAX - random.wide(0, 2_000_000_000);
    match mode {
        Mode::Edge => random.pick(&[0, near_end, TIME_MAX]),
        Mode::Dense if random.one_in(8) => near_end,
        _ => random.wide(0, 1_000_000),
    }
}

struct Traffic<'r, 's> {
    random: &'r mut Random,
    mode: Mode,
    setup: &'s [Plain],
    now: u64,
}

impl<'s> Traffic<'_, 's> {
    fn record(&mut self) -> Plain {
        if self.random.one_in(7) {
            self.clear()
        } else {
            self.arrival()
        }
    }

    fn of_kind(&self, kind: u8) -> Vec<&'s Plain> {
        self.setup.iter().filter(|record| record.is(kind)).collect()
    }

    fn clear(&mut self) -> Plain {
        let (flag, kind) =
            self.random.pick(&[(1, KIND_FILTER), (2, KIND_GATE), (3, KIND_GATE), (4, KIND_METER)]);
        let named = self.of_kind(kind);
        if named.is_empty() {
            return self.arrival();
        }
        let id = named[self.random.place(&named)].get("id");
        Plain::new(KIND_CLEAR, &[flag, id])
    }

    fn arrival(&mut self) -> Plain {
        self.now = self.next_time().clamp(self.now, TIME_MAX);
        let filters = self.of_kind(KIND_FILTER);
        let filter = filters[self.random.place(&filters)];
        let port = self.random.below(if self.mode == Mode::Dense { 3 } else { 8 });
        let handle = self.frame_handle(filter);
        let priority = self.frame_priority(filter);
        let drop_eligible = self.random.below(2);
        let msdu = self.msdu(filter);
        Plain::new(KIND_ARRIVAL, &[port, self.now, handle, priority, drop_eligible, msdu])
    }

    fn frame_handle(&mut self, filter: &Plain) -> u64 {
        if filter.get(ANY_HANDLE) == 1 || self.random.one_in(12) {
            handle(self.random, self.mode)
        } else {
            filter.get("handle")
        }
    }

    fn frame_priority(&mut self, filter: &Plain) -> u64 {
        let priority = filter.get("priority");
        if priority == u64::from(NO_PRIORITY) || self.random.one_in(12) {
            self.random.below(8)
        } else {
            priority
        }
    }

    /// A size around the filter's max SDU, not too often above it.
    fn msdu(&mut self, filter: &Plain) -> u64 {
        let any = number(self.random, self.mode, 0, SDU_MAX, (0, 30));
        let most = match filter.get("max-sdu") {
            0 => return any,
            max_sdu => max_sdu,
        };
        match self.random.below(16) {
            0 => (most + 1).min(SDU_MAX),
            1 => any,
            2..=5 => most,
            _ => self.random.between(0, most),
        }
    }

    /// Often the same time again, or the edge of some gate's interval.
    fn next_time(&mut self) -> u64 {
        let step = match self.mode {
            Mode::Dense => self.random.wide(0, 40),
            Mode::Edge => self.random.pick(&[0, 1, 7, 8, 999_999_999, 1_000_000_000]),
            _ => self.random.wide(0, 10_000_000),
        };
        match self.random.below(4) {
            0 => self.now,
            1 => self.interval_edge().unwrap_or(self.now + step),
            _ => self.now + step,
        }
    }

    /// The start of a gate's interval at hand, or a nanosecond beside it.
    fn interval_edge(&mut self) -> Option<u64> {
        let gates = self.of_kind(KIND_GATE);
        let gate = gates[self.random.place(&gates)];
        let edge = self.next_edge(gate)?;
        let beside = self.random.below(3);
        Some((edge + beside).saturating_sub(1))
    }

    /// The first start of an interval of this gate from now on.
    fn next_edge(&self, gate: &Plain) -> Option<u64> {
        let base = gate.get("base-time");
        if self.now <= base {
            return Some(base);
        }
        let entries = self.of_kind(KIND_GATE_ENTRY);
        let own = entries.iter().filter(|entry| entry.get("gate") == gate.get("id"));
        let intervals: Vec<u64> = own.map(|entry| entry.get("interval")).collect();
        let cycle: u64 = intervals.iter().sum();
        let mut edge = self.now - (self.now - base).checked_rem(cycle)?;
        for interval in intervals {
            if edge >= self.now {
                break;
            }
            edge += interval;
        }
        Some(edge)
    }
}
