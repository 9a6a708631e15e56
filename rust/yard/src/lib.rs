//! The command-line tool of the planner: yards as text, plans as tables and pictures.

#![deny(
    clippy::unwrap_used,
    clippy::expect_used,
    clippy::panic,
    clippy::indexing_slicing
)]

mod axis;
mod chart;
mod commands;
mod drawing;
mod failure;
mod figures;
mod files;
mod labels;
mod layout;
mod small;
mod store;
mod svg;
mod table;
mod text;
mod words;

pub use failure::Failure;
pub use store::{store, store_all_new, store_new};

use std::ffi::OsString;
use std::io::Read;
use words::Words;

/// The text of `yard help`.
pub const HELP: &str = include_str!("help.txt");

/// The result of a command, and where it goes.
#[derive(Debug)]
pub enum Output {
    /// To standard output.
    Printed(Vec<u8>),
    /// To a file, in the place of what stands there.
    File {
        /// The file of `-o`.
        name: OsString,
        /// The result.
        bytes: Vec<u8>,
    },
    /// To a file that is not there yet.
    NewFile {
        /// The file of `-o`.
        name: OsString,
        /// The result.
        bytes: Vec<u8>,
    },
    /// To files that are not there yet.
    NewFiles {
        /// The folder of `-o`.
        folder: OsString,
        /// Each file's name in the folder, and its bytes.
        files: Vec<(String, Vec<u8>)>,
    },
}

/// Runs a command. It reads the files that the words name, and writes nothing.
///
/// # Errors
/// Wrong usage, bad input, or the planner's refusal.
pub fn run(
    words: impl IntoIterator<Item = OsString>,
    input: &mut dyn Read,
) -> Result<Output, Failure> {
    let mut words = words.into_iter();
    let Some(command) = words.next() else {
        return Err(Failure::usage("a command is needed"));
    };
    if ["help", "--help", "-h"].iter().any(|help| command == *help) {
        return Ok(Output::Printed(HELP.as_bytes().to_vec()));
    }
    let words = Words::sort(words)?;
    if command == "small" {
        return small::small(words);
    }
    let bytes = commands::answer(&command, &words, input)?;
    Ok(match words.output {
        None => Output::Printed(bytes),
        Some(name) => Output::File { name, bytes },
    })
}
