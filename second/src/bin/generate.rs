//! `generate`: writes one random stream of records, the same one for the same
//! seed and number.

use std::io::{self, Write};
use std::process::ExitCode;

use second::generator::{self, Mode};

const USAGE: &str = "\
Usage: generate [--seed N] [--stream N] [--mode MODE] > RECORDS

Writes the octets of a random stream of records. `compare` runs the streams
0, 1, 2 and so on of its seed, each in the mode that goes with its number.

  --seed N     the seed (1)
  --stream N   the number of the stream (0)
  --mode MODE  valid, dense, edge or damaged, whatever the number
  --help       print this
";

struct Options {
    seed: u64,
    stream: u64,
    mode: Option<Mode>,
}

fn main() -> ExitCode {
    let arguments: Vec<String> = std::env::args().skip(1).collect();
    if arguments == ["--help"] {
        print!("{USAGE}");
        return ExitCode::SUCCESS;
    }
    let Some(options) = options(&arguments) else {
        eprint!("{USAGE}");
        return ExitCode::from(2);
    };
    let records = generator::stream(options.seed, options.stream, options.mode);
    match write(&records) {
        Ok(()) => ExitCode::SUCCESS,
        Err(fault) => {
            eprintln!("generate: {fault}");
            ExitCode::FAILURE
        }
    }
}

fn options(arguments: &[String]) -> Option<Options> {
    let mut options = Options { seed: 1, stream: 0, mode: None };
    for pair in arguments.chunks(2) {
        let [name, value] = pair else {
            return None;
        };
        match name.as_str() {
            "--seed" => options.seed = value.parse().ok()?,
            "--stream" => options.stream = value.parse().ok()?,
            "--mode" => options.mode = Some(Mode::named(value)?),
            _ => return None,
        }
    }
    Some(options)
}

fn write(records: &[u8]) -> io::Result<()> {
    let mut output = io::stdout().lock();
    output.write_all(records)?;
    output.flush()
}
