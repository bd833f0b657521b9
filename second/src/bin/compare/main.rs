//! `compare`: runs cases and random streams through the programs under test
//! and the second engine, and fails on the first difference.

mod bursts;
mod cases;
mod difference;
mod options;
mod program;
mod progress;
mod streams;
mod tally;

use std::process::ExitCode;

use options::{Options, STREAMS, USAGE};
use tally::Tally;

fn main() -> ExitCode {
    let arguments: Vec<String> = std::env::args().skip(1).collect();
    if arguments == ["--help"] {
        print!("{USAGE}");
        return ExitCode::SUCCESS;
    }
    let Some(options) = options::parse(arguments.into_iter()) else {
        eprint!("{USAGE}");
        return ExitCode::from(2);
    };
    let outcome = if options.bursts { bursts::run(&options) } else { compare(&options) };
    match outcome {
        Ok(last_line) => {
            println!("{last_line}");
            ExitCode::SUCCESS
        }
        Err(difference) => {
            eprint!("compare: {difference}");
            ExitCode::FAILURE
        }
    }
}

/// The last line to print, or the first difference.
fn compare(options: &Options) -> Result<String, String> {
    let mut tally = Tally::default();
    let folder = options.cases.as_deref().expect("cases are asked for");
    let cases = cases::run(options, folder, &mut tally)?;
    streams::run(options, &mut tally)?;
    let (long, short) = streams::run_pieces(options, &mut tally)?;
    tally.print();
    // Fewer streams were asked for on purpose and show what they show.
    if options.streams >= STREAMS {
        tally.check()?;
    }
    println!("in pieces: {long} long streams, {short} short ones");
    Ok(format!("compare: {cases} cases, {} streams, 0 differences", options.streams))
}
