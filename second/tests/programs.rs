//! The programs from outside: what they print where, and how they end.

use std::io::Write;
use std::process::{Command, Output, Stdio};

const SECOND: &str = env!("CARGO_BIN_EXE_second");
const ASSEMBLE: &str = env!("CARGO_BIN_EXE_assemble");
const COMPARE: &str = env!("CARGO_BIN_EXE_compare");
const GENERATE: &str = env!("CARGO_BIN_EXE_generate");
const CASES: &str = concat!(env!("CARGO_MANIFEST_DIR"), "/../cases");

fn run(program: &str, arguments: &[&str], input: &[u8]) -> Output {
    let mut child = Command::new(program)
        .args(arguments)
        .stdin(Stdio::piped())
        .stdout(Stdio::piped())
        .stderr(Stdio::piped())
        .spawn()
        .expect("a program");
    // A program that doesn't read its input may have gone already.
    let _ = child.stdin.take().expect("its input").write_all(input);
    child.wait_with_output().expect("its output")
}

fn text(octets: &[u8]) -> &str {
    std::str::from_utf8(octets).expect("text")
}

#[test]
fn second_prints_what_ingress_prints() {
    let records = [8, 8, 9, 0, 0, 0, 0, 0, 0, 0, 0, 5, 0, 0, 0, 1, 0, 1, 0, 1, 0];
    let output = run(SECOND, &[], &records);
    assert_eq!(text(&output.stdout), "1 pass 0 1 1 -\nrefused 2 at 20\n");
    assert_eq!((output.status.code(), output.stderr.len()), (Some(0), 0));
}

#[test]
fn second_reports() {
    let output = run(SECOND, &["--report"], &[8, 8]);
    assert_eq!(text(&output.stdout), "end 1\n");
    assert_eq!(output.status.code(), Some(0));
}

#[test]
fn every_program_has_help_and_refuses_unknown_arguments() {
    for program in [SECOND, ASSEMBLE, COMPARE, GENERATE] {
        let help = run(program, &["--help"], &[]);
        assert!(text(&help.stdout).starts_with("Usage: "));
        assert_eq!(help.status.code(), Some(0));
        let unknown = run(program, &["--unknown"], &[]);
        assert!(text(&unknown.stderr).contains("Usage: "));
        assert_eq!((unknown.status.code(), unknown.stdout.len()), (Some(2), 0));
    }
}

#[test]
fn assemble_writes_records() {
    let output = run(ASSEMBLE, &[], b"# a port\nport port=1 overhead=2\n");
    assert_eq!(output.stdout, [1, 1, 2]);
    assert_eq!((output.status.code(), output.stderr.len()), (Some(0), 0));
}

#[test]
fn assemble_writes_nothing_on_an_error() {
    let output = run(ASSEMBLE, &[], b"port port=1 overhead=2\nstart classes=9\n");
    let message = "standard input:2:15: expected a decimal number from 1 to 8, found \"9\"\n";
    assert_eq!(text(&output.stderr), message);
    assert_eq!((output.status.code(), output.stdout.len()), (Some(1), 0));
}

#[test]
fn assemble_names_the_file_in_errors() {
    let folder = std::env::temp_dir().join(format!("assemble-{}", std::process::id()));
    std::fs::create_dir_all(&folder).expect("a folder");
    let file = folder.join("press-hall.txt");
    std::fs::write(&file, "start\n").expect("a file");
    let name = file.to_str().expect("a name");
    let output = run(ASSEMBLE, &[name], &[]);
    std::fs::remove_dir_all(&folder).expect("the folder");
    let message = format!("{name}:1:6: expected classes=, found the end of the line\n");
    assert_eq!(text(&output.stderr), message);
    assert_eq!(output.status.code(), Some(1));
    let absent = run(ASSEMBLE, &[name], &[]);
    assert!(text(&absent.stderr).contains(name));
    assert_eq!((absent.status.code(), absent.stdout.len()), (Some(1), 0));
}

#[test]
fn octets_that_are_no_text_are_an_error_outside_comments() {
    let output = run(ASSEMBLE, &[], b"# \xff\nstart classes=\xff\n");
    assert!(text(&output.stderr).starts_with("standard input:2:15: expected"));
    assert!(run(ASSEMBLE, &[], b"# \xff\n").status.success());
}

#[test]
fn compare_finds_no_difference_to_itself() {
    let arguments = ["--ingress", SECOND, "--cases", CASES, "--streams", "20"];
    let output = run(COMPARE, &arguments, &[]);
    let last = text(&output.stdout).lines().last().expect("a last line");
    assert!(last.starts_with("compare: ") && last.ends_with(" cases, 20 streams, 0 differences"));
    assert_eq!((output.status.code(), output.stderr.len()), (Some(0), 0));
}

#[test]
fn compare_fails_on_a_program_that_prints_otherwise() {
    let output = run(COMPARE, &["--ingress", ASSEMBLE, "--cases", CASES], &[]);
    let told: Vec<&str> = text(&output.stderr).lines().collect();
    assert!(told.iter().any(|line| line.starts_with("compare: case ")));
    assert!(told.iter().any(|line| line.starts_with("record ")));
    assert!(told.contains(&"ingress: (nothing more)"));
    assert_eq!((output.status.code(), output.stdout.len()), (Some(1), 0));
}

#[test]
fn compare_checks_bursts() {
    let output = run(COMPARE, &["--bursts", "--ingress", SECOND, "--streams", "20"], &[]);
    assert!(text(&output.stdout).ends_with("compare: 20 pairs, 0 differences\n"));
    assert_eq!(output.status.code(), Some(0));
}

#[test]
fn generate_writes_a_stream_in_every_mode() {
    for mode in ["valid", "dense", "edge", "damaged"] {
        let output = run(GENERATE, &["--seed", "3", "--mode", mode], &[]);
        assert!(output.status.success() && !output.stdout.is_empty());
    }
    assert_eq!(run(GENERATE, &["--mode", "odd"], &[]).status.code(), Some(2));
}
