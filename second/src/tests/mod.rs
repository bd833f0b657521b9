//! Unit tests, by subject. Inputs are written in the text form.

mod cases;
mod figures;
mod generators;
mod path;
mod refusals;
mod steps;
mod table;
mod texts;

use crate::bridge::{Answer, Bridge, Outcome};
use crate::fields::FILTERS;
use crate::filter::Filter;
use crate::print;
use crate::text;

/// The octets of records that a test writes as text.
fn octets(records: &str) -> Vec<u8> {
    text::assemble(records).unwrap_or_else(|fault| panic!("{fault}\n{records}"))
}

/// What `ingress` prints, as lines.
fn ingress(records: &str) -> Vec<String> {
    lines(&print::ingress(&octets(records)))
}

/// What the report prints, as lines.
fn report(records: &str) -> Vec<String> {
    lines(&print::report(&octets(records)))
}

fn lines(printed: &str) -> Vec<String> {
    printed.lines().map(str::to_string).collect()
}

/// The last line of what `ingress` prints.
fn last(records: &str) -> String {
    ingress(records).pop().expect("a last line")
}

/// An arrival on port 0, handle 7, priority 3, not drop eligible.
fn arrival(time: u64, msdu: u64) -> String {
    format!("arrival port=0 time={time} handle=7 priority=3 drop-eligible=0 msdu={msdu}\n")
}

/// The answers to arrivals after a setup, without their numbers.
fn answers(setup: &str, arrivals: &[String]) -> Vec<String> {
    let mut printed = ingress(&format!("{setup}{}", arrivals.concat()));
    let end = printed.pop().expect("a last line");
    assert!(end.starts_with("end "), "{end}");
    let answer = |line: String| line.split_once(' ').expect("a number").1.to_string();
    printed.into_iter().map(answer).collect()
}

/// The eligibility times or drops after a setup.
fn times(setup: &str, arrivals: &[(u64, u64)]) -> Vec<String> {
    let arrivals: Vec<String> = arrivals.iter().map(|&(time, msdu)| arrival(time, msdu)).collect();
    let time = |answer: String| match answer.strip_prefix("pass ") {
        Some(pass) => pass.rsplit(' ').next().expect("a time").to_string(),
        None => answer,
    };
    answers(setup, &arrivals).into_iter().map(time).collect()
}

/// A bridge with its table, for calls one by one.
struct Caller {
    bridge: Bridge,
    table: [Filter; FILTERS],
}

impl Caller {
    fn new() -> Caller {
        Caller { bridge: Bridge::new(), table: Filter::table() }
    }

    /// A caller that has taken all these records.
    fn after(records: &str) -> Caller {
        let mut caller = Caller::new();
        let input = octets(records);
        let mut offset = 0;
        while offset < input.len() {
            let answer = caller.bridge.take(&mut caller.table, &input[offset..]);
            assert_ne!(answer.used, 0, "{:?} at {offset}", answer.outcome);
            offset += answer.used;
        }
        caller
    }

    fn call<'a>(&mut self, input: &'a [u8]) -> Answer<'a> {
        self.bridge.take(&mut self.table, input)
    }

    /// The answer to one record, as a line: `taken`, `refused N` or a verdict.
    fn take(&mut self, record: &str) -> String {
        self.take_octets(&octets(record))
    }

    fn take_octets(&mut self, input: &[u8]) -> String {
        match self.call(input).outcome {
            Outcome::Refused(refusal) => format!("refused {}", refusal.number()),
            Outcome::Taken => "taken".to_string(),
            Outcome::Arrival(verdict) => {
                print::arrival_line(0, &verdict).trim_start_matches("0 ").to_string()
            }
        }
    }
}

/// Gate 0 as it is in most tests: always open, null IPV.
const GATE: &str =
    "gate id=0 state=1 ipv=null invalid-receive-block=0 octets-block=0 base-time=0\n";
const START: &str = "start classes=8\n";
/// Filter 0 for handle 7, naming nothing but gate 0.
const FILTER: &str = "filter id=0 handle=7 priority=any gate=0 max-sdu=none oversize-block=0 \
                      meter=none scheduler=none\n";
