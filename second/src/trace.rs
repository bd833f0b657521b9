//! A run of the second engine, written down record by record, so that a
//! difference can be laid at the door of one of them.

use crate::bridge::Verdict;
use crate::print;
use crate::run::{End, Run};
use crate::text;

/// Where a record stands in its input, and what it says.
#[derive(Clone, Debug, PartialEq, Eq)]
pub struct Place {
    /// From 1.
    pub number: u64,
    pub offset: usize,
    pub text: String,
}

/// A line that `ingress` prints, and the record it answers.
#[derive(Clone, Debug, PartialEq, Eq)]
pub struct Line {
    pub printed: String,
    pub place: Place,
}

pub struct Trace {
    pub lines: Vec<Line>,
    pub verdicts: Vec<Verdict>,
    pub end: End,
    /// Every record offered, the refused one included.
    pub places: Vec<Place>,
}

pub fn trace(input: &[u8]) -> Trace {
    let mut run = Run::new(input);
    let (mut lines, mut verdicts, mut places) = (Vec::new(), Vec::new(), Vec::new());
    loop {
        let place = place(&run);
        match run.step() {
            Ok(verdict) => {
                if let Some(verdict) = verdict {
                    let printed = print::arrival_line(run.arrivals, &verdict);
                    lines.push(Line { printed, place: place.clone() });
                    verdicts.push(verdict);
                }
                places.push(place);
            }
            Err(end) => {
                lines.push(Line { printed: print::last_line(&run, end), place: place.clone() });
                places.extend(matches!(end, End::Refused(_)).then_some(place));
                return Trace { lines, verdicts, end, places };
            }
        }
    }
}

fn place(run: &Run) -> Place {
    Place { number: run.taken + 1, offset: run.offset, text: record_text(run.rest) }
}

/// The record an input begins with, or its octets where the reader takes none.
fn record_text(input: &[u8]) -> String {
    const SHOWN: usize = 30;
    match text::first(input) {
        Ok((text, _)) => text,
        Err(_) if input.is_empty() => "no octet left".to_string(),
        Err(_) => {
            let shown = input.iter().take(SHOWN);
            let octets: Vec<String> = shown.map(|octet| format!("{octet:02x}")).collect();
            let more = if input.len() > SHOWN { " .." } else { "" };
            format!("octets {}{more}", octets.join(" "))
        }
    }
}
