//! Random streams through the programs and the second engine.

use second::generator::{self, Mode};
use second::print;
use second::text;
use second::trace::trace;

use crate::difference::{in_answers, in_records, in_report, Pair};
use crate::options::Options;
use crate::program::{run_all, Feed};
use crate::progress::Progress;
use crate::tally::Tally;

/// How many streams come in pieces: of thousands of records, and short ones.
const LONG: u64 = 24;
const SHORT: u64 = 60;

pub fn run(options: &Options, tally: &mut Tally) -> Result<(), String> {
    let progress = Progress::new("streams", options.streams);
    for stream in 0..options.streams {
        progress.show(stream);
        check(options, stream, tally)?;
    }
    Ok(())
}

/// Streams that come in pieces: long ones, which no program reads at once, and
/// short ones a few octets at a time. Gives the number of each.
pub fn run_pieces(options: &Options, tally: &mut Tally) -> Result<(u64, u64), String> {
    let seed = options.seed;
    for stream in 0..LONG {
        let subject = format!("seed {seed}, long stream {stream}");
        agree(options, &generator::long(seed, stream), &subject, Feed::AtOnce, tally)?;
    }
    for stream in 0..SHORT {
        let subject = format!("in pieces: {}", named(seed, stream));
        let input = generator::stream(seed, stream, None);
        agree(options, &input, &subject, Feed::InPieces, tally)?;
    }
    Ok((LONG, SHORT))
}

fn named(seed: u64, stream: u64) -> String {
    let mode = Mode::of_stream(stream).name();
    let again = format!("generate --seed {seed} --stream {stream}");
    format!("seed {seed}, stream {stream} ({mode}); have it again with: {again}")
}

fn check(options: &Options, stream: u64, tally: &mut Tally) -> Result<(), String> {
    let input = generator::stream(options.seed, stream, None);
    agree(options, &input, &named(options.seed, stream), Feed::AtOnce, tally)
}

fn agree(
    options: &Options,
    input: &[u8],
    subject: &str,
    feed: Feed,
    tally: &mut Tally,
) -> Result<(), String> {
    let trace = trace(input);
    tally.count(&trace);
    let programs =
        [Some(options.ingress.as_path()), options.report.as_deref(), options.records.as_deref()];
    let [answers, report, records] = run_all(programs, input, feed)?;
    if let Some(theirs) = answers {
        let pair = Pair { left: ("ingress", &theirs), right: ("second", &print::ingress(input)) };
        in_answers(subject, &trace, &pair)?;
    }
    if let (Some(theirs), Some(program)) = (report, options.report.as_deref()) {
        let pair = Pair { left: ("report", &theirs), right: ("second", &print::report(input)) };
        in_report(subject, &trace, &pair, program, input)?;
    }
    if let Some(theirs) = records {
        let pair = Pair { left: ("records", &theirs), right: ("second", &text::records(input)) };
        in_records(subject, &trace, &pair)?;
    }
    Ok(())
}
