//! The small surveys: one printed or written, and a folder with all of them.

use crate::tool::{misused, program, run, run_bytes};
use ranqustei::{small_surveys, Survey};
use std::fs;
use std::path::{Path, PathBuf};

/// The program's exit status and what it says of a failure; it prints nothing else.
fn told(words: &[&str]) -> (Option<i32>, String) {
    let output = program(words).output().expect("the program runs");
    assert_eq!(output.stdout, b"");
    let said = String::from_utf8(output.stderr).expect("it is text");
    (output.status.code(), said)
}

/// A folder of a test's own, which is not there yet.
fn missing(name: &str) -> PathBuf {
    let folder = Path::new(env!("CARGO_TARGET_TMPDIR")).join(name);
    let _ = fs::remove_dir_all(&folder);
    folder
}

/// A folder of a test's own, empty.
fn empty(name: &str) -> PathBuf {
    let folder = missing(name);
    fs::create_dir_all(&folder).expect("the scratch folder can be written");
    folder
}

fn text(path: &Path) -> String {
    path.display().to_string()
}

/// The names in a folder, in order.
fn names(folder: &Path) -> Vec<String> {
    let files = fs::read_dir(folder).expect("the folder is there");
    let names = files.map(|file| file.expect("a file").file_name().into_string());
    let mut names: Vec<String> = names.map(|name| name.expect("a plain name")).collect();
    names.sort();
    names
}

/// The bytes of a small survey.
fn survey(number: u32) -> Vec<u8> {
    let survey = Survey::small(number).expect("there is such a survey");
    survey.as_bytes().to_vec()
}

#[test]
fn one_is_printed() {
    for number in [0, 5, 70, 1_727] {
        let printed = run_bytes(&["small", &number.to_string()], "");
        assert_eq!(printed, Ok(survey(number)));
    }
    let output = program(&["small", "70"]).output();
    let output = output.expect("the program runs");
    assert_eq!((output.status.code(), output.stderr.len()), (Some(0), 0));
    assert_eq!(output.stdout, survey(70));
}

#[test]
fn one_is_written_and_planned() {
    let file = text(&empty("small-one").join("70.survey"));
    assert_eq!(
        told(&["small", "70", "-o", &file]),
        (Some(0), String::new())
    );
    assert_eq!(fs::read(&file).ok(), Some(survey(70)));
    let plans = "\
plan  sum  ceiling 1  links
   0    0          1  0: 0–1, 1: 0–2
   1    1          0  0: 0–1, 2: 1–2
2 plans, 2 positions solved
";
    assert_eq!(run(&["plans", &file], ""), Ok(plans.to_string()));
}

#[test]
fn all_are_written_and_planned() {
    let folder = missing("small-all").join("set");
    let name = text(&folder);
    let written = told(&["small", "--all", "-o", &name]);
    assert_eq!(written, (Some(0), String::new()));
    let expected: Vec<String> = (0..1_728)
        .map(|number| format!("{number:04}.survey"))
        .collect();
    assert_eq!(names(&folder), expected);
    for (name, survey) in expected.iter().zip(small_surveys()) {
        let file = folder.join(name);
        assert_eq!(fs::read(&file).ok().as_deref(), Some(survey.as_bytes()));
    }
    let fifth = text(&folder.join("0005.survey"));
    let plans = "\
plan  sum  ceiling 1  links
   0    0          1  0: 0–1, 2: 0–2
1 plan, 2 positions solved
";
    assert_eq!(run(&["plans", &fifth], ""), Ok(plans.to_string()));
    let text = "\
stations 3 ceilings 1
0 1 0 0  # link 0
0 1 0 0  # link 1
0 2 0 1  # link 2
";
    assert_eq!(run(&["text", &fifth], ""), Ok(text.to_string()));
}

const IS_THERE: &str = "another file is there already, and is not written over";

#[test]
fn a_file_is_not_written_over() {
    let file = empty("small-kept").join("kept.survey");
    fs::write(&file, "kept").expect("the scratch folder can be written");
    let name = text(&file);
    let refused = (Some(1), format!("{name}: {IS_THERE}\n"));
    assert_eq!(told(&["small", "5", "-o", &name]), refused);
    assert_eq!(fs::read(&file).ok(), Some(b"kept".to_vec()));
    // A file that has the survey already is left as it is.
    fs::write(&file, survey(5)).expect("the scratch folder can be written");
    assert_eq!(told(&["small", "5", "-o", &name]).0, Some(0));
    assert_eq!(told(&["small", "6", "-o", &name]), refused);
    assert_eq!(told(&["small", "5", "-o", "/dev/null"]).0, Some(0));
    let nowhere = told(&["small", "5", "-o", "no/such/folder"]);
    assert_eq!(nowhere.0, Some(1));
    assert!(nowhere.1.starts_with("no/such/folder: "));
}

#[test]
fn no_file_of_a_folder_is_written_over() {
    let folder = empty("small-folder");
    let file = folder.join("0999.survey");
    fs::write(&file, "kept").expect("the scratch folder can be written");
    let name = text(&folder);
    let refused = (Some(1), format!("{}: {IS_THERE}\n", text(&file)));
    assert_eq!(told(&["small", "--all", "-o", &name]), refused);
    assert_eq!(fs::read(&file).ok(), Some(b"kept".to_vec()));
    assert_eq!(names(&folder), ["0999.survey"]);
    // Files of other names do not matter.
    fs::rename(&file, folder.join("999.survey")).expect("the test wrote it");
    assert_eq!(told(&["small", "--all", "-o", &name]).0, Some(0));
    assert_eq!(names(&folder).len(), 1_729);
    // A run that was cut off can be made again.
    fs::remove_file(folder.join("1727.survey")).expect("the tool wrote it");
    assert_eq!(told(&["small", "--all", "-o", &name]).0, Some(0));
    assert_eq!(
        fs::read(folder.join("1727.survey")).ok(),
        Some(survey(1_727))
    );
    let no_folder = told(&["small", "--all", "-o", &text(&file)]);
    assert_eq!(no_folder.0, Some(1));
    assert!(no_folder.1.starts_with(&text(&file)));
}

#[test]
fn numbers_without_a_survey() {
    let sentence = "there are 1,728 small surveys, numbered from 0 (number 20, place 0)";
    for number in [
        "1728",
        "65536",
        "4294967295",
        "4294967296",
        "99999999999999999999999999",
    ] {
        let refused = run(&["small", number], "");
        assert_eq!(refused, Err((1, sentence.to_string())), "{number}");
    }
    let file = text(&empty("small-none").join("none.survey"));
    let refused = (Some(1), format!("{sentence}\n"));
    assert_eq!(told(&["small", "1728", "-o", &file]), refused);
    assert!(fs::metadata(&file).is_err());
}

#[test]
fn words_that_are_no_number() {
    for word in ["", "x", "-1", "5.0", "0x5", "all", "–"] {
        let no_number = misused(&format!("`{word}` is no survey number"));
        assert_eq!(run(&["small", word], ""), no_number);
    }
}

#[test]
fn wrong_words() {
    let forms = "the command is `yard small NUMBER [-o FILE]` or `yard small --all -o FOLDER`";
    for words in [
        &[][..],
        &["-o", "x"],
        &["1", "2"],
        &["--all"],
        &["--all", "1"],
        &["--all", "1", "-o", "x"],
        &["1", "--plan", "0"],
        &["1", "--record", "plain"],
    ] {
        let answer = run(&[&["small"], words].concat(), "");
        assert_eq!(answer, misused(forms), "{words:?}");
    }
}
