//! The program itself: exit status, standard streams, files.

use crate::tool::{program, scratch, text_a};
use std::io::Write;
use std::process::{Command, Output, Stdio};

/// The program with its streams piped.
fn piped(words: &[&str]) -> Command {
    let mut command = program(words);
    command
        .stdin(Stdio::piped())
        .stdout(Stdio::piped())
        .stderr(Stdio::piped());
    command
}

/// Runs the program to its end on survey A.
fn on_a(words: &[&str]) -> Output {
    let mut child = piped(words).spawn().expect("the program starts");
    let mut input = child.stdin.take().expect("its input is piped");
    // A program that needs no input may have ended already.
    let _ = input.write_all(text_a().as_bytes());
    drop(input);
    child.wait_with_output().expect("the program ends")
}

#[test]
fn statuses_and_streams() {
    let fine = on_a(&["judge", "-", "0", "2"]);
    assert_eq!((fine.status.code(), fine.stderr.len()), (Some(0), 0));
    assert!(fine.stdout.starts_with(b"sum  ceiling 1  links\n"));
    let refused = on_a(&["best", "-", "6"]);
    assert_eq!((refused.status.code(), refused.stdout.len()), (Some(1), 0));
    assert_eq!(
        refused.stderr,
        b"standard input: no tree fits the ceilings (number 14, place 0)\n"
    );
    let misused = on_a(&["best"]);
    assert_eq!((misused.status.code(), misused.stdout.len()), (Some(2), 0));
    assert_eq!(on_a(&["help"]).stdout, yard::HELP.as_bytes());
}

#[test]
fn results_go_to_the_named_file() {
    let file = scratch("result.survey", "");
    let output = on_a(&["survey", "-", "-o", &file]);
    assert_eq!((output.status.code(), output.stdout.len()), (Some(0), 0));
    assert_eq!(
        std::fs::read(&file).ok(),
        Some(on_a(&["survey", "-"]).stdout)
    );
    let nowhere = on_a(&["plans", "-", "-o", "no/such/folder"]);
    assert_eq!(nowhere.status.code(), Some(1));
    assert!(nowhere.stderr.starts_with(b"no/such/folder: "));
}

#[test]
fn a_file_is_written_whole_or_stays() {
    let file = scratch("kept.txt", "kept");
    let part = scratch("kept.txt.part", "another's");
    let failed = on_a(&["plans", "-", "-o", &file]);
    assert_eq!(failed.status.code(), Some(1));
    assert_eq!(std::fs::read(&file).ok(), Some(b"kept".to_vec()));
    assert_eq!(std::fs::read(&part).ok(), Some(b"another's".to_vec()));
    std::fs::remove_file(&part).expect("the test wrote it");
    assert_eq!(on_a(&["plans", "-", "-o", &file]).status.code(), Some(0));
    assert_eq!(
        std::fs::read(&file).ok(),
        Some(on_a(&["plans", "-"]).stdout)
    );
    assert!(std::fs::read(&part).is_err());
    assert_eq!(
        on_a(&["plans", "-", "-o", "/dev/null"]).status.code(),
        Some(0)
    );
}

#[test]
fn a_closed_pipe_is_no_failure() {
    let mut child = piped(&["draw", "-"]).spawn().expect("the program starts");
    drop(child.stdout.take());
    let mut input = child.stdin.take().expect("its input is piped");
    input
        .write_all(text_a().as_bytes())
        .expect("the program reads its input");
    drop(input);
    let output = child.wait_with_output().expect("the program ends");
    assert_eq!((output.status.code(), output.stderr.len()), (Some(0), 0));
}
