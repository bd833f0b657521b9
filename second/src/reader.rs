//! The record reader: from octets to a kind, its body, its values and the
//! record they stand for; and back from values to octets.

use crate::fields::{self, Kind};
use crate::filter::Filter;
use crate::gate::{Entry, GateRecord};
use crate::meter::MeterRecord;
use crate::record::{Arrival, Flag, Record};
use crate::refusal::Refusal;
use crate::tokens::{Octets, Rate};

/// The first record's kind and body. Refuses with 1, 2 and 1 again, in that
/// order: whether the body is whole is asked only once the kind is known.
pub fn split(input: &[u8]) -> Result<(&'static Kind, &[u8]), Refusal> {
    let &number = input.first().ok_or(Refusal::CutShort)?;
    let kind = fields::kind(number).ok_or(Refusal::UnknownKind)?;
    let body = input.get(1..1 + kind.body_octets()).ok_or(Refusal::CutShort)?;
    Ok((kind, body))
}

/// The values of a whole body, or refusal 3.
pub fn values(kind: &Kind, body: &[u8]) -> Result<Vec<u64>, Refusal> {
    let mut rest = body;
    let mut values = Vec::new();
    for field in kind.fields {
        let (octets, after) = rest.split_at(field.octets);
        values.push(big_endian(octets));
        rest = after;
    }
    if fields::in_range(kind, &values) {
        Ok(values)
    } else {
        Err(Refusal::OutOfRange)
    }
}

fn big_endian(octets: &[u8]) -> u64 {
    octets.iter().fold(0, |number, &octet| number << 8 | u64::from(octet))
}

/// The octets of a record with these values, which needn't be in range: a
/// value too wide for its field loses its upper octets.
pub fn octets(kind: &Kind, values: &[u64]) -> Vec<u8> {
    let mut record = vec![kind.number];
    for (field, value) in kind.fields.iter().zip(values) {
        record.extend_from_slice(&value.to_be_bytes()[8 - field.octets..]);
    }
    record
}

/// The record that values in range stand for.
pub fn record(kind: &Kind, values: &[u64]) -> Record {
    let octet = |place: usize| values[place] as u8;
    let flag = |place: usize| values[place] == 1;
    match kind.number {
        fields::KIND_PORT => Record::Port { port: octet(0), overhead: octet(1) },
        fields::KIND_FILTER => Record::Filter { id: octet(0), row: filter(values) },
        fields::KIND_GATE => Record::Gate {
            id: octet(0),
            gate: GateRecord {
                open: flag(1),
                ipv: octet(2),
                invalid_receive_block: flag(3),
                octets_block: flag(4),
                base_time: values[5],
            },
        },
        fields::KIND_GATE_ENTRY => Record::GateEntry { gate: octet(0), entry: entry(values) },
        fields::KIND_METER => Record::Meter { id: octet(0), meter: meter(values) },
        fields::KIND_GROUP => Record::Group { id: octet(0), residence: values[1] as u32 },
        fields::KIND_SCHEDULER => Record::Scheduler {
            id: octet(0),
            group: octet(1),
            rate: Rate(values[2]),
            burst: Octets(values[3] as u32),
        },
        fields::KIND_START => Record::Start { classes: octet(0) },
        fields::KIND_ARRIVAL => Record::Arrival(arrival(values)),
        _ => Record::Clear { flag: flag_named(values[0]), id: octet(1) },
    }
}

fn filter(values: &[u64]) -> Filter {
    Filter {
        any_handle: values[1] as u8,
        handle: values[2] as u32,
        priority: values[3] as u8,
        gate: values[4] as u8,
        max_sdu: values[5] as u16,
        oversize_block: values[6] as u8,
        meter: values[7] as u8,
        scheduler: values[8] as u8,
    }
}

fn entry(values: &[u64]) -> Entry {
    Entry {
        open: values[1] == 1,
        ipv: values[2] as u8,
        interval: values[3] as u32,
        octet_maximum: values[4] as u32,
    }
}

fn meter(values: &[u64]) -> MeterRecord {
    MeterRecord {
        committed_rate: Rate(values[1]),
        committed_burst: Octets(values[2] as u32),
        excess_rate: Rate(values[3]),
        excess_burst: Octets(values[4] as u32),
        coupling: values[5] == 1,
        colour_aware: values[6] == 1,
        drop_on_yellow: values[7] == 1,
        red_block: values[8] == 1,
    }
}

fn arrival(values: &[u64]) -> Arrival {
    Arrival {
        port: values[0] as u8,
        time: values[1],
        handle: values[2] as u32,
        priority: values[3] as u8,
        drop_eligible: values[4] == 1,
        msdu: values[5] as u16,
    }
}

fn flag_named(number: u64) -> Flag {
    match number {
        1 => Flag::Oversize,
        2 => Flag::InvalidReceive,
        3 => Flag::Octets,
        _ => Flag::Red,
    }
}
