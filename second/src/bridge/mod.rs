//! The stage itself: one call takes one record.

mod path;

use crate::fields::{Kind, FILTERS, GATES, GROUPS, KIND_ARRIVAL, METERS, PORTS, SCHEDULERS};
use crate::filter::{Counters, Filter, FilterState};
use crate::gate::{Entry, Gate, GateRecord};
use crate::meter::{Meter, MeterRecord};
use crate::reader;
use crate::record::{Flag, Record};
use crate::refusal::Refusal;
use crate::scheduler::{Group, Scheduler};
use crate::tokens::{Octets, Rate};

/// Why a frame is dropped. The discriminant is document 01's number.
#[derive(Clone, Copy, Debug, PartialEq, Eq)]
#[repr(u8)]
pub enum Drop {
    OversizeFlag = 1,
    Oversize = 2,
    GateFlag = 3,
    GateClosed = 4,
    OctetsExceeded = 5,
    Yellow = 6,
    Red = 7,
    ResidenceExceeded = 8,
}

impl Drop {
    pub fn number(self) -> u8 {
        self as u8
    }
}

/// What a frame carries on.
#[derive(Clone, Copy, Debug, PartialEq, Eq)]
pub struct Pass {
    pub priority: u8,
    pub class: u8,
    pub drop_eligible: bool,
    pub eligibility: Option<u64>,
}

#[derive(Clone, Copy, Debug, PartialEq, Eq)]
pub enum Verdict {
    Pass(Pass),
    Drop(Drop),
}

#[derive(Clone, Copy, Debug, PartialEq, Eq)]
pub enum Outcome {
    Refused(Refusal),
    /// Setup, start or clear.
    Taken,
    Arrival(Verdict),
}

/// The answer to one call.
#[derive(Clone, Copy, Debug, PartialEq, Eq)]
pub struct Answer<'a> {
    pub outcome: Outcome,
    /// The octets of a taken record, kind and body; 0 on a refusal.
    pub used: usize,
    /// The part of the input after the kind; empty on a refusal.
    pub body: &'a [u8],
}

#[derive(Clone, Copy, Debug, Default, PartialEq, Eq)]
struct Port {
    overhead: Option<u8>,
    discarded_frames: u64,
}

/// Everything but the filter table, which is lent to each call.
#[derive(Clone, Debug, PartialEq, Eq)]
pub struct Bridge {
    ports: [Port; PORTS],
    filters: [FilterState; FILTERS],
    gates: [Gate; GATES],
    meters: [Option<Meter>; METERS],
    groups: [Option<Group>; GROUPS],
    schedulers: [Option<Scheduler>; SCHEDULERS],
    /// The number of traffic classes, once a start is taken.
    classes: Option<u8>,
    last_arrival: Option<u64>,
}

impl Default for Bridge {
    fn default() -> Bridge {
        Bridge::new()
    }
}

/// Taking a record, setting up, and what is asked from outside.
impl Bridge {
    pub fn new() -> Bridge {
        Bridge {
            ports: Default::default(),
            filters: [FilterState::default(); FILTERS],
            gates: Default::default(),
            meters: [None; METERS],
            groups: [None; GROUPS],
            schedulers: [None; SCHEDULERS],
            classes: None,
            last_arrival: None,
        }
    }

    /// Takes the record that the input begins with, or refuses it and leaves
    /// everything as it was.
    pub fn take<'a>(&mut self, table: &mut [Filter], input: &'a [u8]) -> Answer<'a> {
        match self.try_take(table, input) {
            Ok((outcome, body)) => Answer { outcome, used: 1 + body.len(), body },
            Err(refusal) => {
                Answer { outcome: Outcome::Refused(refusal), used: 0, body: &input[..0] }
            }
        }
    }

    fn try_take<'a>(
        &mut self,
        table: &mut [Filter],
        input: &'a [u8],
    ) -> Result<(Outcome, &'a [u8]), Refusal> {
        if table.len() != FILTERS {
            return Err(Refusal::TableSize);
        }
        let (kind, body) = reader::split(input)?;
        self.check_phase(kind)?;
        let values = reader::values(kind, body)?;
        let outcome = self.apply(table, reader::record(kind, &values))?;
        Ok((outcome, body))
    }

    fn check_phase(&self, kind: &Kind) -> Result<(), Refusal> {
        let after_start = kind.number >= KIND_ARRIVAL;
        if after_start == self.classes.is_some() {
            Ok(())
        } else {
            Err(Refusal::WrongPhase)
        }
    }

    fn apply(&mut self, table: &mut [Filter], record: Record) -> Result<Outcome, Refusal> {
        match record {
            Record::Port { port, overhead } => self.set_up_port(port, overhead)?,
            Record::Filter { id, row } => set_up_filter(table, id, row)?,
            Record::Gate { id, gate } => self.set_up_gate(id, gate)?,
            Record::GateEntry { gate, entry } => self.add_entry(gate, entry)?,
            Record::Meter { id, meter } => self.set_up_meter(id, meter)?,
            Record::Group { id, residence } => self.set_up_group(id, residence)?,
            Record::Scheduler { id, group, rate, burst } => {
                self.set_up_scheduler(id, group, rate, burst)?
            }
            Record::Start { classes } => self.start(table, classes)?,
            Record::Arrival(arrival) => return self.arrive(table, arrival),
            Record::Clear { flag, id } => self.clear(table, flag, id)?,
        }
        Ok(Outcome::Taken)
    }

    fn set_up_port(&mut self, port: u8, overhead: u8) -> Result<(), Refusal> {
        set_up(&mut self.ports[usize::from(port)].overhead, overhead)
    }

    fn set_up_gate(&mut self, id: u8, record: GateRecord) -> Result<(), Refusal> {
        set_up(&mut self.gates[usize::from(id)].record, record)
    }

    fn add_entry(&mut self, gate: u8, entry: Entry) -> Result<(), Refusal> {
        let gate = &mut self.gates[usize::from(gate)];
        if gate.is_full() {
            return Err(Refusal::NinthEntry);
        }
        gate.add(entry);
        Ok(())
    }

    fn set_up_meter(&mut self, id: u8, record: MeterRecord) -> Result<(), Refusal> {
        set_up(&mut self.meters[usize::from(id)], Meter::new(record))
    }

    fn set_up_group(&mut self, id: u8, residence: u32) -> Result<(), Refusal> {
        set_up(&mut self.groups[usize::from(id)], Group { residence, last: 0 })
    }

    fn set_up_scheduler(
        &mut self,
        id: u8,
        group: u8,
        rate: Rate,
        burst: Octets,
    ) -> Result<(), Refusal> {
        set_up(&mut self.schedulers[usize::from(id)], Scheduler::new(group, rate, burst))
    }

    fn start(&mut self, table: &[Filter], classes: u8) -> Result<(), Refusal> {
        // Before start a row in range is a filter, whatever it names.
        let rows = || table.iter().filter(|row| row.in_range());
        if !rows().all(|row| self.names_what_is_set_up(row)) || !self.lists_and_schedulers_whole() {
            return Err(Refusal::Missing);
        }
        if !rows().all(|row| self.burst_suffices(row)) {
            return Err(Refusal::BurstTooSmall);
        }
        self.classes = Some(classes);
        Ok(())
    }

    fn names_what_is_set_up(&self, row: &Filter) -> bool {
        self.gates[usize::from(row.gate)].record.is_some()
            && row.meter().map_or(true, |meter| self.meters[meter].is_some())
            && row.scheduler().map_or(true, |id| self.schedulers[id].is_some())
    }

    fn lists_and_schedulers_whole(&self) -> bool {
        let lists = self.gates.iter().all(|gate| gate.record.is_some() || !gate.has_entries());
        let mut schedulers = self.schedulers.iter().flatten();
        lists && schedulers.all(|scheduler| self.groups[usize::from(scheduler.group)].is_some())
    }

    /// Whether the largest frame the filter lets through fits its scheduler's
    /// bucket, for a row that names what is set up.
    fn burst_suffices(&self, row: &Filter) -> bool {
        let scheduler = match row.scheduler().and_then(|id| self.schedulers[id]) {
            Some(scheduler) => scheduler,
            None => return true,
        };
        row.max_sdu().map_or(false, |max_sdu| {
            u32::from(max_sdu) + u32::from(self.largest_overhead()) <= scheduler.burst.0
        })
    }

    fn overhead(&self, port: u8) -> u8 {
        self.ports[usize::from(port)].overhead.unwrap_or(0)
    }

    fn largest_overhead(&self) -> u8 {
        (0..PORTS as u8).map(|port| self.overhead(port)).max().unwrap_or(0)
    }

    /// After start: whether a row is a filter at all. A spoiled one counts as
    /// empty.
    fn in_use(&self, row: &Filter) -> bool {
        row.in_range() && self.names_what_is_set_up(row) && self.burst_suffices(row)
    }

    fn clear(&mut self, table: &[Filter], flag: Flag, id: u8) -> Result<(), Refusal> {
        let id = usize::from(id);
        match flag {
            Flag::Oversize if self.in_use(&table[id]) => self.filters[id].oversize = false,
            Flag::Oversize => return Err(Refusal::NotSetUp),
            Flag::InvalidReceive => self.gate_set_up(id)?.invalid_receive = false,
            Flag::Octets => self.gate_set_up(id)?.octets = false,
            Flag::Red => self.meters[id].as_mut().ok_or(Refusal::NotSetUp)?.red = false,
        }
        Ok(())
    }

    fn gate_set_up(&mut self, id: usize) -> Result<&mut Gate, Refusal> {
        let gate = &mut self.gates[id];
        if gate.record.is_none() {
            return Err(Refusal::NotSetUp);
        }
        Ok(gate)
    }

    pub fn counters(&self, filter: usize) -> Counters {
        self.filters[filter].counters
    }

    pub fn oversize(&self, filter: usize) -> bool {
        self.filters[filter].oversize
    }

    pub fn invalid_receive(&self, gate: usize) -> bool {
        self.gates[gate].invalid_receive
    }

    pub fn octets(&self, gate: usize) -> bool {
        self.gates[gate].octets
    }

    pub fn red(&self, meter: usize) -> bool {
        self.meters[meter].map_or(false, |meter| meter.red)
    }

    pub fn discarded_frames(&self, port: usize) -> u64 {
        self.ports[port].discarded_frames
    }

    pub fn meter(&self, id: usize) -> Option<Meter> {
        self.meters[id]
    }

    pub fn scheduler(&self, id: usize) -> Option<Scheduler> {
        self.schedulers[id]
    }

    pub fn group(&self, id: usize) -> Option<Group> {
        self.groups[id]
    }

    /// The first filter that matches, in ascending identifier; after start.
    pub fn first_match(&self, table: &[Filter], handle: u32, priority: u8) -> Option<usize> {
        table.iter().position(|row| self.in_use(row) && row.matches(handle, priority))
    }
}

/// Fills a place that is empty; refuses with 5 otherwise.
fn set_up<T>(place: &mut Option<T>, value: T) -> Result<(), Refusal> {
    if place.is_some() {
        return Err(Refusal::SetUpAlready);
    }
    *place = Some(value);
    Ok(())
}

/// A place whose row is out of range counts as empty and is written over.
fn set_up_filter(table: &mut [Filter], id: u8, row: Filter) -> Result<(), Refusal> {
    let place = &mut table[usize::from(id)];
    if place.in_range() {
        return Err(Refusal::SetUpAlready);
    }
    *place = row;
    Ok(())
}
