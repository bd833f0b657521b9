//! Every case: its golden output, its golden report, its text and back.

use std::fs;
use std::path::{Path, PathBuf};

use super::*;

/// The names of all cases, without `.txt`.
fn cases() -> Vec<PathBuf> {
    let folder = Path::new(env!("CARGO_MANIFEST_DIR")).join("../cases");
    let files = fs::read_dir(folder).expect("the folder of cases");
    let paths = files.map(|file| file.expect("a file").path());
    let texts = paths.filter(|path| path.extension().is_some_and(|end| end == "txt"));
    let cases: Vec<PathBuf> = texts.map(|path| path.with_extension("")).collect();
    assert!(!cases.is_empty());
    cases
}

fn source(case: &Path) -> String {
    fs::read_to_string(case.with_extension("txt")).expect("a case")
}

#[test]
fn every_case_opens_with_the_rule_it_shows() {
    for case in cases() {
        assert!(source(&case).starts_with("# "), "{}", case.display());
    }
}

#[test]
fn every_case_gives_its_golden_output() {
    for case in cases() {
        let golden = fs::read_to_string(case.with_extension("out")).expect("a golden output");
        assert_eq!(print::ingress(&octets(&source(&case))), golden, "{}", case.display());
    }
}

#[test]
fn every_golden_report_is_given() {
    for case in cases() {
        if let Ok(golden) = fs::read_to_string(case.with_extension("report")) {
            assert_eq!(print::report(&octets(&source(&case))), golden, "{}", case.display());
        }
    }
}

/// The case with neither comments nor blank lines is canonical text already,
/// but for `octets` lines. It comes back up to a record that is out of turn.
#[test]
fn every_case_without_octets_comes_back_as_canonical_text() {
    for case in cases() {
        let source = source(&case);
        if source.lines().any(|line| line.starts_with("octets")) {
            continue;
        }
        let lines = source.lines().map(|line| line.split('#').next().unwrap_or("").trim_end());
        let words = lines
            .filter(|line| !line.is_empty())
            .map(|line| line.split_whitespace().collect::<Vec<&str>>().join(" ") + "\n");
        let words = words.collect::<String>();
        let printed = text::records(&octets(&source));
        let read = printed.split("refused 4 at ").next().unwrap_or("");
        let whole = read.len() == printed.len();
        assert!(words.starts_with(read) && whole == (words == printed), "{}", case.display());
    }
}
