//! Demand 3: a larger burst makes nothing later and drops nothing more.
//!
//! Two streams differ in one scheduler's burst, the second's being larger.
//! As long as the first run has given no drop 8 to a frame of that
//! scheduler's group, the second has given none to them, gives each of them a
//! time no later, and agrees in all else. Frames of no or another group get
//! equal answers always.

use std::path::Path;

use second::fields::{BURST_MAX, KIND_FILTER, KIND_GROUP, KIND_SCHEDULER, NONE, SPAN_MAX};
use second::generator::{self, octets, Mode, Plain};
use second::random::Random;
use second::reader;
use second::record::Record;
use second::run::{End, Run};
use second::trace::{trace, Place, Trace};

use crate::options::Options;
use crate::program::{self, Feed};
use crate::progress::Progress;

pub fn run(options: &Options) -> Result<String, String> {
    let progress = Progress::new("pairs", options.streams);
    let mut seen = Seen::default();
    for number in 0..options.streams {
        progress.show(number);
        let pair = draw(options.seed, number);
        pair.check(options, &mut seen).map_err(|fault| {
            let Pair { smaller, larger, scheduler, .. } = &pair;
            format!(
                "seed {}, pair {number}: scheduler {scheduler} with burst {smaller} and {larger}\n{fault}",
                options.seed
            )
        })?;
    }
    println!("frames of the group: {}", seen.of_group);
    println!("made earlier: {}", seen.earlier);
    println!("pairs with a drop 8 in the group: {}", seen.dropped);
    Ok(format!("compare: {} pairs, 0 differences", options.streams))
}

/// What the pairs showed, so that nobody takes empty ones for proof.
#[derive(Default)]
struct Seen {
    of_group: u64,
    earlier: u64,
    dropped: u64,
}

struct Pair {
    first: Vec<u8>,
    second: Vec<u8>,
    scheduler: u64,
    group: u64,
    smaller: u64,
    larger: u64,
}

/// A sound stream, and the same with one burst larger.
fn draw(seed: u64, number: u64) -> Pair {
    let mut random = Random::of_stream(seed, number);
    let mode = random.pick(&[Mode::Valid, Mode::Dense, Mode::Dense, Mode::Edge]);
    let mut records = generator::sound(&mut random, mode);
    let scheduler = some_scheduler(&mut random, &records);
    let (place, group) = named(&records, KIND_SCHEDULER, scheduler);
    let (group, residence) = (group.get("group"), random.wide(1, SPAN_MAX));
    // A long residence lets frames wait, where a short one would drop them.
    if random.one_in(2) {
        let (place, _) = named(&records, KIND_GROUP, group);
        records[place].set("residence", residence);
    }
    // The largest burst can't grow: begin one below it.
    let smaller = records[place].get("cbs").min(BURST_MAX - 1);
    let larger = random.wide(smaller + 1, BURST_MAX);
    let mut with = |burst: u64| {
        records[place].set("cbs", burst);
        octets(&records)
    };
    Pair { first: with(smaller), second: with(larger), scheduler, group, smaller, larger }
}

/// A scheduler that a filter names, where there is one.
fn some_scheduler(random: &mut Random, records: &[Plain]) -> u64 {
    let of = |kind: u8, field: &str| -> Vec<u64> {
        records.iter().filter(|record| record.is(kind)).map(|record| record.get(field)).collect()
    };
    let mut used = of(KIND_FILTER, "scheduler");
    used.retain(|&id| id != u64::from(NONE));
    let all = of(KIND_SCHEDULER, "id");
    random.pick(if used.is_empty() { &all } else { &used })
}

/// The record of that kind and identifier, and its place.
fn named(records: &[Plain], kind: u8, id: u64) -> (usize, &Plain) {
    let mut places = records.iter().enumerate();
    places.find(|(_, record)| record.is(kind) && record.get("id") == id).expect("a sound stream")
}

impl Pair {
    fn check(&self, options: &Options, seen: &mut Seen) -> Result<(), String> {
        let trace = trace(&self.first);
        if trace.end != End::NoOctetLeft {
            return Err("the setup is refused\n".to_string());
        }
        let first = program::run(&options.ingress, &self.first, Feed::AtOnce)?;
        let second = program::run(&options.ingress, &self.second, Feed::AtOnce)?;
        let dropped = check_lines(&trace, &self.frames_of_group(), [&first, &second], seen)?;
        seen.dropped += u64::from(dropped.is_some());
        let until = dropped.map_or(self.first.len(), |arrival| trace.lines[arrival].place.offset);
        match &options.report {
            Some(report) => self.check_reports(report, until),
            None => Ok(()),
        }
    }

    /// For each arrival whether its matched filter names a scheduler of the
    /// group, whether or not the frame gets that far.
    fn frames_of_group(&self) -> Vec<bool> {
        let mut run = Run::new(&self.first);
        let mut of_group = Vec::new();
        loop {
            let here = self.is_of_group(&run);
            match run.step() {
                Ok(Some(_)) => of_group.push(here),
                Ok(None) => {}
                Err(_) => return of_group,
            }
        }
    }

    fn is_of_group(&self, run: &Run) -> bool {
        let Ok((kind, body)) = reader::split(run.rest) else {
            return false;
        };
        let values = reader::values(kind, body).expect("a sound record");
        let Record::Arrival(arrival) = reader::record(kind, &values) else {
            return false;
        };
        let filter = run.bridge.first_match(&run.table, arrival.handle, arrival.priority);
        let scheduler = filter.and_then(|id| run.table[id].scheduler());
        let group = scheduler.and_then(|id| run.bridge.scheduler(id)).map(|found| found.group);
        group.map(u64::from) == Some(self.group)
    }

    /// Counters and flags before the first drop 8 in the group are equal.
    fn check_reports(&self, report: &Path, until: usize) -> Result<(), String> {
        let first = program::run(report, &self.first[..until], Feed::AtOnce)?;
        let second = program::run(report, &self.second[..until], Feed::AtOnce)?;
        if first == second {
            return Ok(());
        }
        Err(format!("reports of the first {until} octets\nfirst:\n{first}second:\n{second}"))
    }
}

/// Compares the answers of both runs; gives the first run's first arrival of
/// the group with drop 8, if there is one.
fn check_lines(
    trace: &Trace,
    of_group: &[bool],
    printed: [&str; 2],
    seen: &mut Seen,
) -> Result<Option<usize>, String> {
    let [first, second] = printed.map(|printed| printed.lines().collect::<Vec<&str>>());
    if first.len() != trace.lines.len() || second.len() != first.len() {
        return Err(format!("{} and {} lines\n", first.len(), second.len()));
    }
    let mut dropped = None;
    for (number, (one, other)) in first.iter().zip(&second).enumerate() {
        // The last line answers no arrival and is equal as those outside are.
        let inside = of_group.get(number) == Some(&true);
        if inside && dropped.is_none() && one.ends_with(" drop 8") {
            dropped = Some(number);
        }
        if inside && dropped.is_some() {
            continue;
        }
        if one != other && !(inside && no_later(one, other)) {
            let Place { number, offset, text } = &trace.lines[number].place;
            return Err(format!(
                "record {number} at {offset}: {text}\nfirst: {one}\nsecond: {other}\n"
            ));
        }
        seen.of_group += u64::from(inside);
        seen.earlier += u64::from(one != other);
    }
    Ok(dropped)
}

/// Whether both lines pass the frame with all equal but the time, which the
/// other gives earlier.
fn no_later(one: &str, other: &str) -> bool {
    let (Some((one, time)), Some((other, other_time))) =
        (one.rsplit_once(' '), other.rsplit_once(' '))
    else {
        return false;
    };
    let times = (time.parse::<u64>(), other_time.parse::<u64>());
    one == other
        && one.contains(" pass ")
        && matches!(times, (Ok(time), Ok(other)) if other <= time)
}

#[cfg(test)]
mod tests {
    use super::no_later;

    #[test]
    fn only_the_time_may_differ_and_only_downwards() {
        assert!(no_later("7 pass 3 3 0 4000", "7 pass 3 3 0 3999"));
        assert!(no_later("7 pass 3 3 0 4000", "7 pass 3 3 0 4000"));
        assert!(!no_later("7 pass 3 3 0 4000", "7 pass 3 3 0 4001"));
        assert!(!no_later("7 pass 3 3 0 4000", "7 pass 3 3 1 3999"));
        assert!(!no_later("7 pass 3 3 0 -", "7 pass 3 3 0 0"));
        assert!(!no_later("7 pass 3 3 0 0", "7 pass 3 3 0 -"));
        assert!(!no_later("7 pass 3 3 0 4000", "7 drop 8"));
        assert!(!no_later("7 drop 7", "7 drop 6"));
        assert!(!no_later("end 7", "end 6"));
    }
}
