//! The arguments of `compare`.

use std::path::PathBuf;

pub const USAGE: &str = "\
Usage: compare --ingress PATH [--report PATH] [--records PATH] --cases DIR
               [--seed N] [--streams N]
       compare --bursts --ingress PATH [--report PATH] [--seed N] [--streams N]

Runs every case, then random streams, then some that are too long to be read
at once and some that come a few octets at a time, through the given programs
and the second engine, and fails on the first difference. Each program reads
records from standard input.

  --ingress PATH  the program that prints an answer for each arrival
  --report PATH   the program that prints counters and flags
  --records PATH  the program that prints records as text
  --cases DIR     the cases: NAME.txt, NAME.out, perhaps NAME.report
  --seed N        the seed of the streams (1)
  --streams N     how many streams, or pairs of them (3000, or 1000 pairs)
  --bursts        check that a larger burst makes nothing later, on pairs of
                  streams that differ in one scheduler's burst
  --help          print this
";

pub const STREAMS: u64 = 3000;
pub const PAIRS: u64 = 1000;

#[derive(Default)]
pub struct Options {
    pub ingress: PathBuf,
    pub report: Option<PathBuf>,
    pub records: Option<PathBuf>,
    pub cases: Option<PathBuf>,
    pub seed: u64,
    pub streams: u64,
    pub bursts: bool,
}

/// The options, or none where the arguments aren't as the usage says.
pub fn parse(mut arguments: impl Iterator<Item = String>) -> Option<Options> {
    let mut options = Options { seed: 1, ..Options::default() };
    let mut streams = None;
    while let Some(name) = arguments.next() {
        if name == "--bursts" {
            options.bursts = true;
            continue;
        }
        let value = arguments.next()?;
        match name.as_str() {
            "--ingress" => options.ingress = value.into(),
            "--report" => options.report = Some(value.into()),
            "--records" => options.records = Some(value.into()),
            "--cases" => options.cases = Some(value.into()),
            "--seed" => options.seed = value.parse().ok()?,
            "--streams" => streams = Some(value.parse().ok()?),
            _ => return None,
        }
    }
    options.streams = streams.unwrap_or(if options.bursts { PAIRS } else { STREAMS });
    whole(&options).then_some(options)
}

fn whole(options: &Options) -> bool {
    let for_bursts = options.cases.is_none() && options.records.is_none();
    let what = if options.bursts { for_bursts } else { options.cases.is_some() };
    what && !options.ingress.as_os_str().is_empty()
}
