//! The command `yard small`: one small survey, or a folder with all of them.

use crate::failure::Failure;
use crate::words::{number, Words};
use crate::Output;
use ranqustei::{small_surveys, Survey};
use std::ffi::{OsStr, OsString};
use std::num::IntErrorKind;

/// The two forms of the command.
const FORMS: &str = "the command is `yard small NUMBER [-o FILE]` or `yard small --all -o FOLDER`";

/// The survey of a number, or all of them with `--all`. Files and folder are those of `-o`.
pub fn small(words: Words) -> Result<Output, Failure> {
    let Words {
        operands,
        output,
        all,
        plan: None,
        record: None,
    } = words
    else {
        return Err(Failure::usage(FORMS));
    };
    match (operands.as_slice(), all, output) {
        ([word], false, file) => one(word, file),
        ([], true, Some(folder)) => Ok(every(folder)),
        _ => Err(Failure::usage(FORMS)),
    }
}

fn one(word: &OsStr, file: Option<OsString>) -> Result<Output, Failure> {
    let survey = Survey::small(survey_number(word)?).map_err(Failure::input)?;
    let bytes = survey.as_bytes().to_vec();
    Ok(match file {
        None => Output::Printed(bytes),
        Some(name) => Output::NewFile { name, bytes },
    })
}

fn every(folder: OsString) -> Output {
    let named = |(number, survey): (u32, Survey)| {
        let name = format!("{number:04}.survey");
        (name, survey.as_bytes().to_vec())
    };
    Output::NewFiles {
        folder,
        files: (0..).zip(small_surveys()).map(named).collect(),
    }
}

/// The number of a survey. One that is too large for the call counts as the largest that is not:
/// the planner refuses both alike.
fn survey_number(word: &OsStr) -> Result<u32, Failure> {
    let parsed = word.to_str().map(str::parse::<u32>);
    match parsed {
        Some(Err(error)) if *error.kind() == IntErrorKind::PosOverflow => Ok(u32::MAX),
        _ => number(word, "survey number"),
    }
}
