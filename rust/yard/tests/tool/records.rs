//! The yard record that a survey is written with, and surveys that are cut off.

use crate::tool::{repository, run, run_bytes, scratch};
use std::fs;

/// The words of `--record`, each with the example that has survey A so.
const RECORDS: [(&str, &str); 2] = [
    ("plain", "examples/survey-a.survey"),
    ("counted", "examples/counted.survey"),
];

fn bytes(path: &str) -> Vec<u8> {
    fs::read(repository(path)).expect("the example is there")
}

/// The survey that the tool writes for a yard of the repository.
fn survey(yard: &str, options: &[&str]) -> Vec<u8> {
    let yard = repository(yard);
    run_bytes(&[&["survey", yard.as_str()], options].concat(), "").expect("the example is accepted")
}

#[test]
fn a_text_gets_the_counted_record() {
    let text = "examples/yards/survey-a.txt";
    assert_eq!(survey(text, &[]), bytes("examples/counted.survey"));
    for (record, example) in RECORDS {
        assert_eq!(survey(text, &["--record", record]), bytes(example));
    }
    let solar = survey("examples/yards/solar.txt", &["--record", "plain"]);
    assert_eq!(solar, bytes("examples/solar.survey"));
}

#[test]
fn a_survey_keeps_its_record_unless_another_is_asked_for() {
    for (_, given) in RECORDS {
        assert_eq!(survey(given, &[]), bytes(given));
        for (record, example) in RECORDS {
            assert_eq!(survey(given, &["--record", record]), bytes(example));
        }
    }
}

#[test]
fn an_altered_yard_is_stored() {
    for (record, example) in RECORDS {
        let text = run(&["text", &repository(example)], "").expect("the example is accepted");
        let altered = text.replace("1 2 3 2", "1 2 -7 2");
        let written = run_bytes(&["survey", "-", "--record", record], altered);
        // The sum of the last link but one.
        let mut stored = bytes(example);
        let sum = stored.len() - 20;
        stored[sum..][..4].copy_from_slice(&[0xF9, 0xFF, 0xFF, 0xFF]);
        assert_eq!(written, Ok(stored));
    }
}

#[test]
fn the_text_is_the_same_for_both_records() {
    let [plain, counted] = RECORDS.map(|(_, example)| run(&["text", &repository(example)], ""));
    assert!(plain.is_ok());
    assert_eq!(plain, counted);
}

#[test]
fn a_survey_that_is_cut_off() {
    let cut = repository("examples/cut-off.survey");
    let words = "the survey has more or fewer links than its yard record counts: it may be cut off";
    let refused = format!("{cut}: {words} (number 15, place 0)");
    for command in ["plans", "text", "survey", "list", "draw", "frontier"] {
        assert_eq!(run(&[command, &cut], ""), Err((1, refused.clone())));
    }
    // The plain record hides the same cut: a plan is missing, and nothing says so.
    let whole = bytes("examples/survey-a.survey");
    let plain = scratch("cut-off-plain.survey", &whole[..whole.len() - 12]);
    let plans = run(&["plans", &plain], "").expect("the survey looks whole");
    assert!(plans.ends_with("\n1 plan, 2 positions solved\n"), "{plans}");
}

#[test]
fn every_cut_of_an_orchard() {
    let whole = survey("examples/yards/orchard.txt", &[]);
    for length in 0..whole.len() {
        let cut = scratch("cut-orchard.survey", &whole[..length]);
        let answer = run(&["plans", &cut], "").expect_err("a cut is refused");
        let is_record_end = (0..19).any(|links| 7 + 12 * links == length);
        let number = if is_record_end { 15 } else { 1 };
        let refusal = format!("(number {number}, place 0)");
        assert!(answer.1.ends_with(&refusal), "{length}: {}", answer.1);
    }
}
