//! Damage: each way of spoiling a stream aims at one refusal, but for the
//! last, which flips, loses, adds or makes up octets.

use super::setup::{largest_overhead, scheduler_burst};
use super::{octets, sound, Mode, Plain};
use crate::fields::{
    self, KIND_ARRIVAL, KIND_CLEAR, KIND_FILTER, KIND_GATE, KIND_GATE_ENTRY, KIND_GROUP,
    KIND_METER, KIND_SCHEDULER, KIND_START, NONE,
};
use crate::random::Random;

#[derive(Clone, Copy, Debug, PartialEq, Eq)]
pub enum Damage {
    /// Aims at the refusal with this number, 1 to 10.
    Aimed(u8),
    Octets,
}

impl Damage {
    /// Damage takes turns over the damaged streams, which come in pairs.
    pub fn of_stream(stream: u64) -> Damage {
        let turn = stream / 5 * 2 + stream % 5 % 2;
        match turn % 11 {
            10 => Damage::Octets,
            number => Damage::Aimed(number as u8 + 1),
        }
    }
}

pub fn damaged(random: &mut Random, damage: Damage) -> Vec<u8> {
    let mode = random.pick(&[Mode::Valid, Mode::Dense, Mode::Edge]);
    let mut records = sound(random, mode);
    match damage {
        Damage::Aimed(1) => return cut(random, &records),
        Damage::Aimed(2) => return unknown_kind(random, &records),
        Damage::Aimed(3) => out_of_range(random, &mut records),
        Damage::Aimed(4) => wrong_phase(random, &mut records),
        Damage::Aimed(5) => set_up_twice(random, &mut records),
        Damage::Aimed(6) => nine_entries(random, &mut records),
        Damage::Aimed(7) => missing(random, &mut records),
        Damage::Aimed(8) => burst_too_small(random, &mut records),
        Damage::Aimed(9) => back_in_time(random, &mut records),
        Damage::Aimed(_) => clear_of_nothing(random, &mut records),
        Damage::Octets => return spoilt_octets(random, &records),
    }
    octets(&records)
}

/// The stream up to some place inside a record.
fn cut(random: &mut Random, records: &[Plain]) -> Vec<u8> {
    let last = random.place(records);
    let mut stream = octets(&records[..last]);
    let record = records[last].octets();
    let kept = random.between(1, record.len() as u64 - 1);
    stream.extend_from_slice(&record[..kept as usize]);
    stream
}

fn unknown_kind(random: &mut Random, records: &[Plain]) -> Vec<u8> {
    let spoilt = random.place(records);
    let before = octets(&records[..spoilt]).len();
    let mut stream = octets(records);
    let (above, any) = (random.between(11, 15), random.between(11, 255));
    stream[before] = random.pick(&[0, above, any]) as u8;
    stream
}

/// One field of one record just or far outside its range.
fn out_of_range(random: &mut Random, records: &mut [Plain]) {
    loop {
        let spoilt = random.place(records);
        let mut record = records[spoilt].clone();
        let place = random.place(record.kind.fields);
        let field = &record.kind.fields[place];
        let widest = u64::MAX >> (64 - 8 * field.octets);
        let (any, beside) = (random.draw() & widest, record.values[place] ^ 1);
        // 63 and the value beside can be out of range only by another field:
        // a clear's id by its flag, any-handle by a handle that isn't 0.
        let values = [field.high + 1, field.low.saturating_sub(1), widest, any, 63, beside];
        record.values[place] = random.pick(&values) & widest;
        if !fields::in_range(record.kind, &record.values) {
            records[spoilt] = record;
            return;
        }
    }
}

fn start(records: &[Plain]) -> usize {
    records.iter().position(|record| record.is(KIND_START)).expect("a start")
}

/// A record from one side of start, copied to the other.
fn wrong_phase(random: &mut Random, records: &mut Vec<Plain>) {
    let start = start(records);
    let from = random.place(records);
    let record = records[from].clone();
    let to = if from <= start {
        random.between(start as u64 + 1, records.len() as u64)
    } else {
        random.between(0, start as u64)
    };
    records.insert(to as usize, record);
}

/// A setup record once more, perhaps with another value behind its number.
fn set_up_twice(random: &mut Random, records: &mut Vec<Plain>) {
    let start = start(records);
    let places: Vec<usize> =
        (0..start).filter(|&place| !records[place].is(KIND_GATE_ENTRY)).collect();
    let from = random.pick(&places);
    let mut again = records[from].clone();
    let last = again.values.len() - 1;
    let changed = again.values[last] ^ 1;
    if random.one_in(2) && again.kind.fields[last].holds(changed) {
        again.values[last] = changed;
    }
    let to = random.between(from as u64 + 1, start as u64);
    records.insert(to as usize, again);
}

/// Entries of some gate, all over the setup, until there are nine.
fn nine_entries(random: &mut Random, records: &mut Vec<Plain>) {
    let gate = random.below(16);
    let own = |record: &Plain| record.is(KIND_GATE_ENTRY) && record.get("gate") == gate;
    for _ in records.iter().filter(|record| own(record)).count()..9 {
        let entry = Plain::new(KIND_GATE_ENTRY, &[gate, 1, 8, random.between(1, 20), 10]);
        let to = random.between(0, start(records) as u64);
        records.insert(to as usize, entry);
    }
}

/// Takes away something that is named.
fn missing(random: &mut Random, records: &mut Vec<Plain>) {
    let mut named = Vec::new();
    for record in records.iter() {
        match record.kind.number {
            KIND_FILTER => {
                named.push((KIND_GATE, record.get("gate")));
                named.push((KIND_METER, record.get("meter")));
                named.push((KIND_SCHEDULER, record.get("scheduler")));
            }
            KIND_GATE_ENTRY => named.push((KIND_GATE, record.get("gate"))),
            KIND_SCHEDULER => named.push((KIND_GROUP, record.get("group"))),
            _ => {}
        }
    }
    named.retain(|&(_, id)| id != u64::from(NONE));
    let (kind, id) = random.pick(&named);
    records.retain(|record| !(record.is(kind) && record.get("id") == id));
}

/// Takes a scheduled filter's max SDU away, or its scheduler's burst.
fn burst_too_small(random: &mut Random, records: &mut [Plain]) {
    let filters: Vec<usize> =
        (0..records.len()).filter(|&place| records[place].is(KIND_FILTER)).collect();
    let schedulers: Vec<usize> =
        (0..records.len()).filter(|&place| records[place].is(KIND_SCHEDULER)).collect();
    let (filter, scheduler) = (random.pick(&filters), random.pick(&schedulers));
    let id = records[scheduler].get("id");
    records[filter].set("scheduler", id);
    let room = scheduler_burst(records, id).saturating_sub(largest_overhead(records));
    let too_large = if room < 2000 { random.pick(&[0, room + 1, 2000]) } else { 0 };
    records[filter].set("max-sdu", too_large);
}

fn back_in_time(random: &mut Random, records: &mut Vec<Plain>) {
    let places: Vec<usize> =
        (0..records.len()).filter(|&place| records[place].is(KIND_ARRIVAL)).collect();
    let earlier = match places.get(random.place(&places)) {
        Some(&earlier) => earlier,
        None => return,
    };
    let mut back = records[earlier].clone();
    // At time 0 nothing can go back: move on by one first.
    if back.get("time") == 0 {
        records.truncate(earlier + 1);
        back.set("time", 1);
        records.push(back.clone());
    }
    let time = back.get("time");
    back.set("time", time - 1 - random.wide(0, time - 1));
    let to = records.len().min(earlier + 2);
    records.insert(to, back);
}

/// A clear of a filter, gate or meter that isn't set up.
fn clear_of_nothing(random: &mut Random, records: &mut Vec<Plain>) {
    let (flag, kind, places) = random.pick(&[
        (1, KIND_FILTER, 64),
        (2, KIND_GATE, 16),
        (3, KIND_GATE, 16),
        (4, KIND_METER, 16),
    ]);
    let set_up = |id: u64| records.iter().any(|record| record.is(kind) && record.get("id") == id);
    let absent: Vec<u64> = (0..places).filter(|&id| !set_up(id)).collect();
    let clear = Plain::new(KIND_CLEAR, &[flag, random.pick(&absent)]);
    let to = random.between(start(records) as u64 + 1, records.len() as u64);
    records.insert(to as usize, clear);
}

fn spoilt_octets(random: &mut Random, records: &[Plain]) -> Vec<u8> {
    let mut stream = octets(records);
    for _ in 0..random.between(1, 3) {
        let place = random.place(&stream);
        match random.below(4) {
            0 => stream[place] ^= 1 << random.below(8),
            1 => stream[place] = random.draw() as u8,
            2 => stream.insert(place, random.below(16) as u8),
            _ => drop(stream.remove(place)),
        }
    }
    stream
}
