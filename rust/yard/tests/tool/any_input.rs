//! Random text, bytes and words: the tool answers or says what is wrong.

use crate::random::Random;
use crate::tool::{repository, run_bytes, scratch, text_a};

const COMMANDS: [&str; 12] = [
    "plans", "best", "judge", "text", "survey", "list", "fetch", "index", "cheapest", "draw",
    "frontier", "small",
];
const WORDS: [&str; 21] = [
    "stations", "ceilings", "resting", "0", "1", "2", "3", "24", "-1", "255", "1000001",
    "-1000000", "-1000001", "32768", "#", "\n", "\n", "–", "x", "\t", "\r\n",
];

/// Runs a command; a failure has a sentence and status 1 or 2.
fn answers(words: &[&str], input: &[u8]) -> bool {
    match run_bytes(words, input) {
        Ok(_) => true,
        Err((status, message)) => {
            assert!((1..=2).contains(&status) && !message.is_empty());
            false
        }
    }
}

/// A text of random words, often with a good head.
fn random_text(random: &mut Random) -> String {
    let heads = [
        "",
        "",
        "stations 3 ceilings 1\n",
        "stations 3 ceilings 1\nresting 1\n",
        "stations 3 ceilings 1 1 1\n",
    ];
    let mut text = heads[random.below(heads.len())].to_string();
    for _ in 0..random.below(24) {
        text += WORDS[random.below(WORDS.len())];
        text += if random.below(4) == 0 { "\n" } else { " " };
    }
    text
}

#[test]
fn any_text() {
    let mut random = Random(5);
    let mut answered = 0;
    for _ in 0..4_000 {
        let text = random_text(&mut random);
        let command = COMMANDS[random.below(COMMANDS.len())];
        answered += usize::from(answers(&[command, "-"], text.as_bytes()));
        let bytes = random.bytes(60);
        answers(&[command, "-"], &bytes);
    }
    assert!(answered > 20);
}

#[test]
fn any_words() {
    let mut random = Random(6);
    let text = text_a();
    let words = [
        "-o", "--plan", "--record", "--all", "plain", "counted", "resting", "triple", "-", "0",
        "1", "-5", "300", "2000", "help", "", "--", "–", "x.list", "x.index", "x.survey",
    ];
    for _ in 0..4_000 {
        let command = COMMANDS[random.below(COMMANDS.len())];
        let rest = (0..random.below(5)).map(|_| words[random.below(words.len())]);
        let line: Vec<&str> = [command].into_iter().chain(rest).collect();
        answers(&line, text.as_bytes());
    }
}

#[test]
fn any_bytes_in_files() {
    let mut random = Random(7);
    let good = ["plain", "counted", "resting"].map(|record| {
        let survey = run_bytes(&["survey", "-", "--record", record], text_a());
        survey.expect("survey A is accepted")
    });
    let triple = std::fs::read(repository("examples/valley.survey"));
    let triple = triple.expect("the example is there");
    for round in 0..400 {
        let mut bytes = good.get(round % 4).unwrap_or(&triple).clone();
        for _ in 0..random.below(3) {
            let at = random.below(bytes.len());
            bytes[at] = random.below(16) as u8;
        }
        let survey = scratch("any.survey", &bytes);
        let list = scratch("any.list", random.bytes(60));
        for command in COMMANDS {
            answers(&[command, &survey], b"");
        }
        answers(&["fetch", &list, "0"], b"");
        answers(&["index", &list], b"");
    }
}

#[test]
fn any_bytes_in_lists_and_indexes() {
    let mut random = Random(9);
    let good = run_bytes(&["list", "-"], text_a()).expect("survey A lists");
    let mut answered = 0;
    for _ in 0..600 {
        let mut bytes = good.clone();
        let at = random.below(bytes.len());
        bytes[at] = random.below(16) as u8;
        let list = scratch("changed.list", &bytes);
        let index = (0..random.below(6)).map(|_| random.below(2) as u8);
        let index = scratch("any.index", index.collect::<Vec<u8>>());
        answers(&["index", &list], b"");
        answered += usize::from(answers(&["cheapest", &list, &index, "9"], b""));
    }
    assert!(answered > 5);
}
