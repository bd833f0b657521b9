//! What is printed: the lines of `ingress` and those of its report.

use crate::bridge::{Bridge, Verdict};
use crate::fields::{FILTERS, GATES, METERS, PORTS};
use crate::run::{End, Run};

/// All that `ingress` prints for an input.
pub fn ingress(input: &[u8]) -> String {
    let mut run = Run::new(input);
    let mut printed = String::new();
    loop {
        match run.step() {
            Ok(Some(verdict)) => push_line(&mut printed, &arrival_line(run.arrivals, &verdict)),
            Ok(None) => {}
            Err(end) => {
                push_line(&mut printed, &last_line(&run, end));
                return printed;
            }
        }
    }
}

/// All that the report prints for an input.
pub fn report(input: &[u8]) -> String {
    let mut run = Run::new(input);
    let end = loop {
        if let Err(end) = run.step() {
            break end;
        }
    };
    let mut printed = String::new();
    for line in report_lines(&run.bridge) {
        push_line(&mut printed, &line);
    }
    push_line(&mut printed, &last_line(&run, end));
    printed
}

fn push_line(printed: &mut String, line: &str) {
    printed.push_str(line);
    printed.push('\n');
}

pub fn arrival_line(number: u64, verdict: &Verdict) -> String {
    match verdict {
        Verdict::Pass(pass) => {
            let mark = u8::from(pass.drop_eligible);
            let time = pass.eligibility.map_or("-".to_string(), |time| time.to_string());
            format!("{number} pass {} {} {mark} {time}", pass.priority, pass.class)
        }
        Verdict::Drop(drop) => format!("{number} drop {}", drop.number()),
    }
}

pub fn last_line(run: &Run, end: End) -> String {
    match end {
        End::NoOctetLeft => format!("end {}", run.taken),
        End::Refused(refusal) => format!("refused {} at {}", refusal.number(), run.offset),
    }
}

/// Counters and flags that aren't 0.
pub fn report_lines(bridge: &Bridge) -> Vec<String> {
    let filters = (0..FILTERS).flat_map(|id| filter_lines(bridge, id));
    let gates = (0..GATES).flat_map(|id| gate_lines(bridge, id));
    let meters = (0..METERS).map(|id| line("meter", id, "red", bridge.red(id).into()));
    let ports = (0..PORTS).map(|port| discarded_line(bridge, port));
    filters.chain(gates).chain(meters).chain(ports).flatten().collect()
}

fn filter_lines(bridge: &Bridge, id: usize) -> [Option<String>; 7] {
    let counters = bridge.counters(id);
    [
        line("filter", id, "MatchingFrames", counters.matching_frames),
        line("filter", id, "PassingSDU", counters.passing_sdu),
        line("filter", id, "NotPassingSDU", counters.not_passing_sdu),
        line("filter", id, "PassingFrames", counters.passing_frames),
        line("filter", id, "NotPassingFrames", counters.not_passing_frames),
        line("filter", id, "REDFrames", counters.red_frames),
        line("filter", id, "oversize", bridge.oversize(id).into()),
    ]
}

fn gate_lines(bridge: &Bridge, id: usize) -> [Option<String>; 2] {
    [
        line("gate", id, "invalid-receive", bridge.invalid_receive(id).into()),
        line("gate", id, "octets", bridge.octets(id).into()),
    ]
}

fn discarded_line(bridge: &Bridge, port: usize) -> Option<String> {
    line("port", port, "DiscardedFrames", bridge.discarded_frames(port))
}

fn line(of: &str, number: usize, what: &str, value: u64) -> Option<String> {
    (value != 0).then(|| format!("{of} {number} {what} {value}"))
}
