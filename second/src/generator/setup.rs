//! Random setups that start takes.

use super::{Mode, Plain};
use crate::fields::{
    BURST_MAX, ENTRIES, FILTERS, GATES, GROUPS, KIND_FILTER, KIND_GATE, KIND_GATE_ENTRY,
    KIND_GROUP, KIND_METER, KIND_PORT, KIND_SCHEDULER, KIND_START, METERS, NONE, NO_OCTET_MAXIMUM,
    NO_PRIORITY, OVERHEAD_MAX, PORTS, RATE_MAX, SCHEDULERS, SDU_MAX, SPAN_MAX, TIME_MAX,
};
use crate::random::Random;

/// Rates that leave thirds, sevenths and whole octets a nanosecond.
const DENSE_RATES: [u64; 6] =
    [1_000_000_000, 3_000_000_000, 7_000_000_000, 8_000_000_000, 9_999_999_999, 10_000_000_000];

/// A number from a range, as the mode likes it; `dense` is the tiny range.
pub fn number(random: &mut Random, mode: Mode, low: u64, high: u64, dense: (u64, u64)) -> u64 {
    match mode {
        Mode::Dense => random.between(dense.0, dense.1),
        Mode::Edge => {
            let near = random.wide(low, high);
            random.pick(&[low, (low + 1).min(high), high.max(low + 1) - 1, high, near])
        }
        _ => random.wide(low, high),
    }
}

pub fn handle(random: &mut Random, mode: Mode) -> u64 {
    match mode {
        Mode::Dense => random.below(3),
        Mode::Edge => random.pick(&[0, 1, u64::from(u32::MAX) - 1, u64::from(u32::MAX)]),
        _ => random.below(12) * 357_913_941,
    }
}

/// All records up to start, in any order.
pub fn setup(random: &mut Random, mode: Mode) -> Vec<Plain> {
    let mut drawing = Drawing { random, mode, records: Vec::new() };
    drawing.ports();
    drawing.gates();
    drawing.meters();
    drawing.groups_and_schedulers();
    drawing.filters();
    let mut records = drawing.records;
    random.shuffle(&mut records);
    records.push(Plain::new(KIND_START, &[random.between(1, 8)]));
    records
}

struct Drawing<'a> {
    random: &'a mut Random,
    mode: Mode,
    records: Vec<Plain>,
}

impl Drawing<'_> {
    fn number(&mut self, low: u64, high: u64, dense: (u64, u64)) -> u64 {
        number(self.random, self.mode, low, high, dense)
    }

    /// A block that is on now and then.
    fn block(&mut self) -> u64 {
        self.random.one_in(4).into()
    }

    /// Open rather than closed, so that frames get further.
    fn state(&mut self) -> u64 {
        u64::from(!self.random.one_in(6))
    }

    fn rate(&mut self, low: u64) -> u64 {
        match self.mode {
            Mode::Dense => self.random.pick(&DENSE_RATES),
            _ => self.number(low, RATE_MAX, (0, 0)),
        }
    }

    /// How many of a table's places to set up, and which. One is always left.
    fn places(&mut self, low: u64, dense: u64, places: usize) -> Vec<u64> {
        let places = places as u64;
        let most = match self.mode {
            Mode::Dense => dense,
            Mode::Edge if self.random.one_in(4) => places - 1,
            _ => places.min(6),
        };
        let count = self.random.between(low, most);
        self.random.distinct(count, places)
    }

    fn ports(&mut self) {
        for port in self.places(0, 2, PORTS) {
            let overhead = self.number(0, OVERHEAD_MAX, (0, 3));
            self.records.push(Plain::new(KIND_PORT, &[port, overhead]));
        }
    }

    fn gates(&mut self) {
        for id in self.places(1, 2, GATES) {
            let state = self.state();
            let (ipv, blocks) = (self.ipv(), [self.block(), self.block()]);
            let base = match self.mode {
                Mode::Valid => self.random.below(1_000_000),
                _ => self.number(0, TIME_MAX, (0, 50)),
            };
            let values = [id, state, ipv, blocks[0], blocks[1], base];
            self.records.push(Plain::new(KIND_GATE, &values));
            self.entries(id);
        }
    }

    fn ipv(&mut self) -> u64 {
        if self.random.one_in(2) {
            NO_PRIORITY.into()
        } else {
            self.random.below(8)
        }
    }

    fn entries(&mut self, gate: u64) {
        for _ in 0..self.random.between(0, ENTRIES as u64).min(self.random.between(0, 8)) {
            let state = self.state();
            let interval = match self.mode {
                Mode::Valid => self.random.wide(1, 1_000_000),
                _ => self.number(1, SPAN_MAX, (1, 20)),
            };
            let values = [gate, state, self.ipv(), interval, self.octet_maximum()];
            self.records.push(Plain::new(KIND_GATE_ENTRY, &values));
        }
    }

    fn octet_maximum(&mut self) -> u64 {
        let none = u64::from(NO_OCTET_MAXIMUM);
        match self.mode {
            _ if self.random.one_in(2) => none,
            Mode::Edge => self.random.pick(&[0, 1, SDU_MAX, none - 1]),
            _ => self.number(0, 5000, (0, 40)),
        }
    }

    fn meters(&mut self) {
        for id in self.places(0, 2, METERS) {
            let committed = [self.rate(0), self.number(0, BURST_MAX, (0, 40))];
            let excess = [self.rate(0), self.number(0, BURST_MAX, (0, 40))];
            let mut values = vec![id];
            values.extend(committed);
            values.extend(excess);
            values.extend([(); 3].map(|()| self.random.below(2)));
            values.push(self.block());
            self.records.push(Plain::new(KIND_METER, &values));
        }
    }

    fn groups_and_schedulers(&mut self) {
        let groups = self.places(1, 2, GROUPS);
        for &id in &groups {
            let residence = self.number(1, SPAN_MAX, (1, 60));
            self.records.push(Plain::new(KIND_GROUP, &[id, residence]));
        }
        for id in self.places(1, 3, SCHEDULERS) {
            let group = self.random.pick(&groups);
            let (rate, burst) = (self.rate(1), self.number(1, BURST_MAX, (1, 40)));
            self.records.push(Plain::new(KIND_SCHEDULER, &[id, group, rate, burst]));
        }
    }

    fn filters(&mut self) {
        for id in self.places(1, 5, FILTERS) {
            let any_handle = u64::from(self.random.one_in(6));
            let handle = if any_handle == 1 { 0 } else { handle(self.random, self.mode) };
            let priority = self.ipv();
            let gate = self.named(KIND_GATE).expect("a gate");
            let meter = self.named(KIND_METER).filter(|_| self.random.one_in(2));
            let (max_sdu, scheduler) = self.max_sdu_and_scheduler();
            let none = u64::from(NONE);
            let values = [
                id,
                any_handle,
                handle,
                priority,
                gate,
                max_sdu,
                self.block(),
                meter.unwrap_or(none),
                scheduler.unwrap_or(none),
            ];
            self.records.push(Plain::new(KIND_FILTER, &values));
        }
    }

    /// Some identifier of that kind that is set up.
    fn named(&mut self, kind: u8) -> Option<u64> {
        let ids: Vec<u64> = self
            .records
            .iter()
            .filter(|record| record.is(kind))
            .map(|record| record.get("id"))
            .collect();
        (!ids.is_empty()).then(|| self.random.pick(&ids))
    }

    /// A max SDU, and a scheduler where its burst has room for one.
    fn max_sdu_and_scheduler(&mut self) -> (u64, Option<u64>) {
        let id = self.named(KIND_SCHEDULER).expect("a scheduler");
        let burst = scheduler_burst(&self.records, id);
        let room = burst.saturating_sub(largest_overhead(&self.records)).min(SDU_MAX);
        if room > 0 && !self.random.one_in(3) {
            let max_sdu = self.number(1, room, (room - room / 2, room));
            return (max_sdu, Some(id));
        }
        let some = self.number(1, SDU_MAX, (1, 30));
        (self.random.pick(&[0, some]), None)
    }
}

pub fn scheduler_burst(records: &[Plain], id: u64) -> u64 {
    let mut schedulers = records.iter().filter(|record| record.is(KIND_SCHEDULER));
    schedulers.find(|record| record.get("id") == id).expect("the scheduler").get("cbs")
}

pub fn largest_overhead(records: &[Plain]) -> u64 {
    let ports = records.iter().filter(|record| record.is(KIND_PORT));
    ports.map(|record| record.get("overhead")).max().unwrap_or(0)
}
