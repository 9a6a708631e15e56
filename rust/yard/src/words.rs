//! The words of the command line: operands and options.

use crate::failure::Failure;
use ranqustei::YardRecord;
use std::ffi::{OsStr, OsString};
use std::str::FromStr;

/// The words after the command.
#[derive(Default)]
pub struct Words {
    /// The words that are no options.
    pub operands: Vec<OsString>,
    /// The file or the folder of `-o`.
    pub output: Option<OsString>,
    /// Whether `--all` is there.
    pub all: bool,
    /// The plan number of `--plan`.
    pub plan: Option<u32>,
    /// The yard record of `--record`.
    pub record: Option<YardRecord>,
}

impl Words {
    /// Sorts the words into operands and options.
    pub fn sort(words: impl IntoIterator<Item = OsString>) -> Result<Words, Failure> {
        let mut sorted = Words::default();
        let mut words = words.into_iter();
        while let Some(word) = words.next() {
            match word.to_str() {
                Some("-o") => sorted.output = Some(value(&word, words.next())?),
                Some("--all") => sorted.all = true,
                Some("--plan") => {
                    sorted.plan = Some(number(&value(&word, words.next())?, "plan number")?)
                }
                Some("--record") => sorted.record = Some(record(&value(&word, words.next())?)?),
                Some(text) if is_option(text) => {
                    return Err(Failure::usage(format!("`{text}` is no option")))
                }
                _ => sorted.operands.push(word),
            }
        }
        Ok(sorted)
    }
}

/// Whether a word is an option: neither `-` alone nor a negative number.
fn is_option(word: &str) -> bool {
    word.strip_prefix('-')
        .is_some_and(|rest| !rest.is_empty() && !rest.starts_with(|c: char| c.is_ascii_digit()))
}

fn value(option: &OsStr, word: Option<OsString>) -> Result<OsString, Failure> {
    word.ok_or_else(|| Failure::usage(format!("`{}` needs a word after it", option.display())))
}

fn record(word: &OsStr) -> Result<YardRecord, Failure> {
    match word.to_str() {
        Some("plain") => Ok(YardRecord::Plain),
        Some("counted") => Ok(YardRecord::Counted),
        Some("resting") => Ok(YardRecord::Resting),
        Some("triple") => Ok(YardRecord::Triple),
        _ => Err(Failure::usage(format!(
            "`{}` is no yard record, plain, counted, resting or triple",
            word.display()
        ))),
    }
}

/// A number of the command line.
pub fn number<T: FromStr>(word: &OsStr, what: &str) -> Result<T, Failure> {
    let parsed = word.to_str().and_then(|text| text.parse().ok());
    parsed.ok_or_else(|| Failure::usage(format!("`{}` is no {what}", word.display())))
}
