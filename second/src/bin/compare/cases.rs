//! Every case through the programs, against its golden output and the second
//! engine.

use std::fs;
use std::path::{Path, PathBuf};

use second::print;
use second::text;
use second::trace::{trace, Trace};

use crate::difference::{in_answers, in_records, in_report, Pair};
use crate::options::Options;
use crate::program::{run_all, Feed};
use crate::progress::Progress;
use crate::tally::Tally;

/// Runs all cases of the folder and gives their number.
pub fn run(options: &Options, folder: &Path, tally: &mut Tally) -> Result<usize, String> {
    let cases = sorted(folder).map_err(|error| format!("{}: {error}\n", folder.display()))?;
    if cases.is_empty() {
        return Err(format!("{}: no cases\n", folder.display()));
    }
    let progress = Progress::new("cases", cases.len() as u64);
    for (done, case) in cases.iter().enumerate() {
        progress.show(done as u64);
        check(options, case, tally)?;
    }
    Ok(cases.len())
}

fn sorted(folder: &Path) -> std::io::Result<Vec<PathBuf>> {
    let mut cases = Vec::new();
    for file in fs::read_dir(folder)? {
        let path = file?.path();
        if path.extension().is_some_and(|end| end == "txt") {
            cases.push(path);
        }
    }
    cases.sort();
    Ok(cases)
}

fn read(path: &Path) -> Result<String, String> {
    fs::read_to_string(path).map_err(|error| format!("{}: {error}\n", path.display()))
}

fn check(options: &Options, case: &Path, tally: &mut Tally) -> Result<(), String> {
    let input =
        text::assemble(&read(case)?).map_err(|fault| format!("{}:{fault}\n", case.display()))?;
    let subject = format!("case {}", case.file_stem().unwrap_or_default().to_string_lossy());
    let trace = trace(&input);
    tally.count(&trace);
    let programs =
        [Some(options.ingress.as_path()), options.report.as_deref(), options.records.as_deref()];
    let [answers, report, records] = run_all(programs, &input, Feed::AtOnce)?;
    let golden = read(&case.with_extension("out"))?;
    answers_agree(&subject, &trace, &input, &golden, &answers.unwrap_or_default())?;
    reports_agree(&subject, &trace, &input, case, options, report.as_deref())?;
    if let Some(theirs) = records {
        let pair = Pair { left: ("records", &theirs), right: ("second", &text::records(&input)) };
        in_records(&subject, &trace, &pair)?;
    }
    Ok(())
}

fn answers_agree(
    subject: &str,
    trace: &Trace,
    input: &[u8],
    golden: &str,
    theirs: &str,
) -> Result<(), String> {
    let golden = ("golden", golden);
    let pair = Pair { left: ("second", &print::ingress(input)), right: golden };
    in_answers(subject, trace, &pair)?;
    in_answers(subject, trace, &Pair { left: ("ingress", theirs), right: golden })
}

fn reports_agree(
    subject: &str,
    trace: &Trace,
    input: &[u8],
    case: &Path,
    options: &Options,
    theirs: Option<&str>,
) -> Result<(), String> {
    let ours = print::report(input);
    let path = case.with_extension("report");
    if path.exists() {
        let golden = read(&path)?;
        if ours != golden {
            return Err(format!("{subject}\nsecond reports:\n{ours}golden:\n{golden}"));
        }
    }
    let (Some(program), Some(theirs)) = (options.report.as_deref(), theirs) else {
        return Ok(());
    };
    let pair = Pair { left: ("report", theirs), right: ("second", &ours) };
    in_report(subject, trace, &pair, program, input)
}
