//! Stations at rest: in texts, in surveys and in answers.

use crate::tool::{repository, run, run_bytes, scratch, text_a};

const HEAD: &str = "stations 4 ceilings 1\n";
const LINKS: &str = "0 1 4 7  # link 0\n1 2 3 2  # link 1\n0 2 1 9  # link 2\n2 3 1 5  # link 3\n";

/// A yard of four stations with a line between its head and its links.
fn with_line(line: &str) -> String {
    format!("{HEAD}{line}\n{LINKS}")
}

/// Holds the message for a wrong text against its line and words.
fn check(text: &str, line: usize, words: &str) {
    let message = format!("standard input:{line}: {words}");
    assert_eq!(run(&["plans", "-"], text), Err((1, message)));
}

#[test]
fn texts_keep_the_stations_at_rest() {
    let alone = "stations 4\nresting 1 2 3\n0 1 4  # link 0\n";
    for text in [&with_line("resting 3"), &with_line("resting 0 3"), alone] {
        assert_eq!(run(&["text", "-"], text), Ok(text.to_string()));
    }
    let written = Ok(with_line("resting 0 3"));
    for line in [
        "resting 3 0",
        "\n# so\n  resting\t03 0 3 # or so\n",
        "resting +3 0",
    ] {
        assert_eq!(run(&["text", "-"], with_line(line)), written);
    }
    let without = Ok(format!("{HEAD}{LINKS}"));
    assert_eq!(run(&["text", "-"], with_line("resting")), without);
}

#[test]
fn wrong_lines() {
    let station = "a station is a number from 0 to 23";
    check(&with_line("resting x"), 2, &format!("{station}: found `x`"));
    check(
        &with_line("resting 256"),
        2,
        &format!("{station}: found `256`"),
    );
    check(
        &with_line("resting 1 -1"),
        2,
        &format!("{station}: found `-1`"),
    );
    let beyond = "a station at rest is one from 0 to 23: found 24";
    check(&with_line("\nresting 24"), 3, beyond);
    let wrong = "a station at rest is not in the yard, or no station works";
    for line in ["resting 4", "resting 0 1 2 3", "resting 23"] {
        check(
            &with_line(line),
            2,
            &format!("{wrong} (number 18, place 0)"),
        );
    }
    let second = "a line `resting` comes second, before the links";
    check(&format!("{HEAD}{LINKS}resting 1\n"), 6, second);
    check(&with_line("resting 1\nresting 2"), 3, second);
    let head = "the first line is `stations N ceilings K1 K2 K3`: found `resting 1`";
    check(&format!("resting 1\n{HEAD}"), 1, head);
}

#[test]
fn other_faults_keep_their_lines() {
    let ends = "joins a station that the yard does not have, or joins a station to itself";
    check(
        "stations 3\nresting 1\n0 2 4\n1 3 4\n",
        4,
        &format!("link 1 {ends} (number 7, place 2)"),
    );
    let rank =
        "a rank is 1 to 3 and not above the links of a tree, what the ranks have above 1 adds up \
                to at most 2, and an absent ceiling has rank 0 (number 6, place 0)";
    check("stations 3 ceilings 2\nresting 1\n", 1, rank);
    check(
        "stations 25\nresting 30\n",
        2,
        "a station at rest is one from 0 to 23: found 30",
    );
    check(
        "stations 25\nresting 3\n",
        1,
        "a yard has 1 to 24 stations (number 3, place 0)",
    );
}

#[test]
fn plans_join_the_working_stations() {
    let table = "\
plan  sum  ceiling 1  links
   0    4          9  1: 1–2, 2: 0–2
   1    7          7  0: 0–1, 1: 1–2
2 plans, 3 positions solved
";
    assert_eq!(
        run(&["plans", "-"], with_line("resting 3")),
        Ok(table.to_string())
    );
    let winter = with_line("resting 1 3");
    let drawn = "sum  ceiling 1  links\n  1          9  2: 0–2\n".to_string();
    assert_eq!(run(&["judge", "-", "2"], &winter), Ok(drawn.clone()));
    assert_eq!(run(&["best", "-", "9"], &winter), Ok(drawn));
    let (status, message) = run(&["judge", "-", "3"], &winter).expect_err("station 3 rests");
    assert_eq!(
        (status, message.ends_with("(number 11, place 0)")),
        (1, true)
    );
    let alone = "stations 4\nresting 1 2 3\n0 1 4\n1 2 3\n";
    let one = "plan  sum  links\n   0    0  none\n1 plan, 1 position solved\n";
    assert_eq!(run(&["plans", "-"], alone), Ok(one.to_string()));
}

#[test]
fn records() {
    let winter = with_line("resting 1 3");
    let record = |options: &[&str], text: &str| {
        let survey = run_bytes(&[&["survey", "-"], options].concat(), text);
        survey.map(|bytes| bytes[..10].to_vec())
    };
    let bytes = b"YF\x04\x01\x01\x00\x04\x0A\x00\x00".to_vec();
    assert_eq!(record(&[], &winter), Ok(bytes.clone()));
    assert_eq!(record(&["--record", "resting"], &winter), Ok(bytes));
    let lost = "standard input: stations rest, and the yard record does not say which";
    for other in ["plain", "counted"] {
        let answer = record(&["--record", other], &winter);
        assert_eq!(answer, Err((1, lost.to_string())));
    }
    let none = b"YF\x03\x01\x01\x00\x03\x00\x00\x00".to_vec();
    assert_eq!(record(&["--record", "resting"], &text_a()), Ok(none));
}

#[test]
fn surveys_keep_their_record() {
    let survey = repository("examples/resting.survey");
    let bytes = std::fs::read(&survey).expect("the example is there");
    assert_eq!(run_bytes(&["survey", &survey], ""), Ok(bytes.clone()));
    let text = run(&["text", &survey], "").expect("the example is accepted");
    assert!(text.starts_with("stations 5 ceilings 1\nresting 0 2\n0 1 0 0  # link 0\n"));
    assert_eq!(run_bytes(&["survey", "-"], text), Ok(bytes.clone()));
    // No station rests: the record stays, unless another is asked for.
    let mut working = bytes;
    working[7] = 0;
    let file = scratch("all-at-work.survey", &working);
    assert_eq!(run_bytes(&["survey", &file], ""), Ok(working.clone()));
    let counted = run_bytes(&["survey", &file, "--record", "counted"], "");
    let expected = [b"YE", &working[2..7], &working[10..]].concat();
    assert_eq!(counted, Ok(expected));
}

#[test]
fn a_survey_without_working_stations() {
    let file = repository("examples/all-at-rest.survey");
    let words = "a station at rest is not in the yard, or no station works";
    let refused = format!("{file}: {words} (number 18, place 0)");
    for command in ["plans", "text", "survey", "list", "draw", "frontier"] {
        assert_eq!(run(&[command, &file], ""), Err((1, refused.clone())));
    }
}
