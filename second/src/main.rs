//! `second`: reads records from standard input and prints each arrival's
//! answer, or with `--report` what an operator looks at.

use std::io::{self, Read, Write};
use std::process::ExitCode;

use second::print;

const USAGE: &str = "\
Usage: second [--report] < RECORDS

Reads records from standard input and prints a line for each arrival:
its number, then pass with internal priority, class, drop mark and
eligibility time (- for none), or drop with the drop number. The last line
is `end` with the number of records taken, or `refused N at OFFSET`.

  --report  print instead the counters and flags that aren't 0, then the
            same last line
  --help    print this
";

fn main() -> ExitCode {
    let arguments: Vec<String> = std::env::args().skip(1).collect();
    let arguments: Vec<&str> = arguments.iter().map(String::as_str).collect();
    let printer = match arguments[..] {
        [] => print::ingress,
        ["--report"] => print::report,
        ["--help"] => {
            print!("{USAGE}");
            return ExitCode::SUCCESS;
        }
        _ => {
            eprint!("{USAGE}");
            return ExitCode::from(2);
        }
    };
    match run(printer) {
        Ok(()) => ExitCode::SUCCESS,
        Err(fault) => {
            eprintln!("second: {fault}");
            ExitCode::FAILURE
        }
    }
}

fn run(printer: fn(&[u8]) -> String) -> io::Result<()> {
    let mut input = Vec::new();
    io::stdin().lock().read_to_end(&mut input)?;
    let mut output = io::stdout().lock();
    output.write_all(printer(&input).as_bytes())?;
    output.flush()
}
