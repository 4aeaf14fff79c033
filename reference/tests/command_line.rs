//! The command-line program.

use reference::{comparison_cases, format_cases, run_cases};
use std::io::Write;
use std::path::{Path, PathBuf};
use std::process::{Command, Output, Stdio};
use std::{env, fs, process};

#[path = "common/w.rs"]
mod w;

use w::book_w;

/// Runs the program with these arguments and this standard input.
fn reference(arguments: &[&Path], input: &[u8]) -> Output {
    let mut child = Command::new(env!("CARGO_BIN_EXE_reference"))
        .args(arguments)
        .stdin(Stdio::piped())
        .stdout(Stdio::piped())
        .stderr(Stdio::piped())
        .spawn()
        .unwrap();
    let mut stdin = child.stdin.take().unwrap();
    stdin.write_all(input).unwrap();
    drop(stdin);
    child.wait_with_output().unwrap()
}

/// The path of a file for one test, in the system's temporary folder.
fn temporary(name: &str) -> PathBuf {
    env::temp_dir().join(format!("reference-{}-{name}", process::id()))
}

#[test]
fn run_lists_a_book_from_standard_input() {
    let output = reference(&["run".as_ref()], &book_w().encode());
    assert_eq!(output.stdout, b"out 1 250\nstop 27 7 19\n");
    assert_eq!(output.stderr, b"");
    assert_eq!(output.status.code(), Some(0));
}

#[test]
fn run_lists_a_book_from_a_file() {
    let path = temporary("w");
    fs::write(&path, book_w().encode()).unwrap();
    let output = reference(&["run".as_ref(), &path], b"");
    fs::remove_file(&path).unwrap();
    assert_eq!(output.stdout, b"out 1 250\nstop 27 7 19\n");
    assert_eq!(output.status.code(), Some(0));
}

#[test]
fn explain_adds_a_line() {
    let output = reference(&["explain".as_ref()], &book_w().encode());
    let expected = b"out 1 250\nstop 27 7 19\nplace 0 2 0 count 8\n";
    assert_eq!(output.stdout, expected);
    assert_eq!(output.stderr, b"");
    assert_eq!(output.status.code(), Some(0));
}

#[test]
fn next_writes_the_book_for_the_next_day() {
    let monday = include_bytes!("../../examples/monday.book");
    let output = reference(&["next".as_ref()], monday);
    assert_eq!(output.stdout, include_bytes!("../../examples/tuesday.book"));
    assert_eq!(output.status.code(), Some(0));
    let output = reference(&["next".as_ref()], b"");
    assert_eq!(output.stdout, b"");
    assert_eq!(output.stderr, b"refused 2 0\n");
    assert_eq!(output.status.code(), Some(1));
}

#[test]
fn a_refused_book_is_listed() {
    for (command, expected) in [
        ("run", "refused 2 0\n"),
        ("explain", "refused 2 0\nplace none count 0\n"),
    ] {
        let output = reference(&[command.as_ref()], b"");
        assert_eq!(output.stdout, expected.as_bytes());
        assert_eq!(output.status.code(), Some(0));
    }
}

#[test]
fn cases_go_to_a_folder() {
    let folder = temporary("cases");
    fs::create_dir(&folder).unwrap();
    let output = reference(&["cases".as_ref(), &folder], b"");
    let stdin = fs::read(folder.join("stdin")).unwrap();
    let stdout = fs::read_to_string(folder.join("stdout")).unwrap();
    fs::remove_dir_all(&folder).unwrap();
    let format = format_cases::all();
    let run = run_cases::all();
    let (format_part, run_part) = stdin.split_at(format_cases::stream(&format).len());
    assert_eq!(format_part, format_cases::stream(&format));
    assert_eq!(run_part, run_cases::stream(&run));
    let fields: Vec<usize> = stdout.lines().map(|line| line.split(' ').count()).collect();
    let (format_lines, run_lines) = fields.split_at(format.len());
    assert!(format_lines.iter().all(|&fields| fields == 9));
    assert!(run_lines.iter().all(|&fields| fields == 18));
    assert_eq!(run_lines.len(), run.len());
    assert_eq!(output.stdout, b"");
    assert_eq!(output.status.code(), Some(0));
}

/// What follows the last whole pair has no line.
#[test]
fn comparisons_go_to_a_folder() {
    let folder = temporary("comparisons");
    fs::create_dir(&folder).unwrap();
    let output = reference(&["comparisons".as_ref(), &folder], b"");
    let stdin = fs::read(folder.join("stdin")).unwrap();
    let stdout = fs::read_to_string(folder.join("stdout")).unwrap();
    fs::remove_dir_all(&folder).unwrap();
    let pairs = comparison_cases::all();
    let (whole, rest) = stdin.split_at(128 * pairs.len());
    assert_eq!(whole, comparison_cases::stream(&pairs));
    assert_eq!(rest.len(), 127);
    assert_eq!(stdout, comparison_cases::answers(&pairs));
    assert_eq!(stdout.lines().count(), pairs.len());
    assert_eq!(output.stdout, b"");
    assert_eq!(output.status.code(), Some(0));
}

#[test]
fn a_missing_file_is_named() {
    let path = temporary("missing");
    for command in ["run", "explain", "cases", "comparisons"] {
        let output = reference(&[command.as_ref(), &path], b"");
        let message = String::from_utf8(output.stderr).unwrap();
        assert!(message.contains(path.to_str().unwrap()), "{message}");
        assert_eq!(output.stdout, b"");
        assert_eq!(output.status.code(), Some(2));
    }
}

#[test]
fn other_command_lines_show_the_usage() {
    let lines: [&[&Path]; 6] = [
        &[],
        &["unknown".as_ref()],
        &["cases".as_ref()],
        &["comparisons".as_ref()],
        &["run".as_ref(), "one".as_ref(), "two".as_ref()],
        &["explain".as_ref(), "one".as_ref(), "two".as_ref()],
    ];
    for arguments in lines {
        let output = reference(arguments, b"");
        let message = String::from_utf8(output.stderr).unwrap();
        assert!(message.contains("usage: reference"), "{message}");
        assert_eq!(output.stdout, b"");
        assert_eq!(output.status.code(), Some(2));
    }
}
