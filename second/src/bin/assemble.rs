//! `assemble`: turns the text form of records into their octets.

use std::io::{self, Read, Write};
use std::process::ExitCode;

use second::text;

const USAGE: &str = "\
Usage: assemble [FILE] > RECORDS

Reads records in the text form, one a line, from FILE or standard input, and
writes their octets to standard output. An error is reported as
FILE:LINE:COLUMN: expected ..., found ... and nothing is written then.

  --help    print this
";

fn main() -> ExitCode {
    let arguments: Vec<String> = std::env::args().skip(1).collect();
    let arguments: Vec<&str> = arguments.iter().map(String::as_str).collect();
    let file = match arguments[..] {
        [] => None,
        ["--help"] => {
            print!("{USAGE}");
            return ExitCode::SUCCESS;
        }
        [file] if !file.starts_with('-') => Some(file),
        _ => {
            eprint!("{USAGE}");
            return ExitCode::from(2);
        }
    };
    match run(file) {
        Ok(()) => ExitCode::SUCCESS,
        Err(message) => {
            eprintln!("{message}");
            ExitCode::FAILURE
        }
    }
}

fn run(file: Option<&str>) -> Result<(), String> {
    let name = file.unwrap_or("standard input");
    let source = read(file).map_err(|fault| format!("assemble: {name}: {fault}"))?;
    // Octets that aren't text can only stand in comments; anywhere else their
    // replacement is an error like any other.
    let source = String::from_utf8_lossy(&source);
    let records = text::assemble(&source).map_err(|fault| format!("{name}:{fault}"))?;
    write(&records).map_err(|fault| format!("assemble: standard output: {fault}"))
}

fn write(records: &[u8]) -> io::Result<()> {
    let mut output = io::stdout().lock();
    output.write_all(records)?;
    output.flush()
}

fn read(file: Option<&str>) -> io::Result<Vec<u8>> {
    let mut source = Vec::new();
    match file {
        Some(file) => source = std::fs::read(file)?,
        None => {
            io::stdin().lock().read_to_end(&mut source)?;
        }
    }
    Ok(source)
}
