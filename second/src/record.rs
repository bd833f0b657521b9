//! Records as the stage works with them, once they are read and in range.

use crate::filter::Filter;
use crate::gate::{Entry, GateRecord};
use crate::meter::MeterRecord;
use crate::tokens::{Octets, Rate};

#[derive(Clone, Copy, Debug, PartialEq, Eq)]
pub struct Arrival {
    pub port: u8,
    pub time: u64,
    pub handle: u32,
    pub priority: u8,
    pub drop_eligible: bool,
    pub msdu: u16,
}

/// What a clear record lifts.
#[derive(Clone, Copy, Debug, PartialEq, Eq)]
pub enum Flag {
    Oversize,
    InvalidReceive,
    Octets,
    Red,
}

#[derive(Clone, Copy, Debug, PartialEq, Eq)]
pub enum Record {
    Port { port: u8, overhead: u8 },
    Filter { id: u8, row: Filter },
    Gate { id: u8, gate: GateRecord },
    GateEntry { gate: u8, entry: Entry },
    Meter { id: u8, meter: MeterRecord },
    Group { id: u8, residence: u32 },
    Scheduler { id: u8, group: u8, rate: Rate, burst: Octets },
    Start { classes: u8 },
    Arrival(Arrival),
    Clear { flag: Flag, id: u8 },
}
