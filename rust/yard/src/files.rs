//! Reading files by the ending of their names.

use crate::failure::Failure;
use crate::text;
use ranqustei::Survey;
use std::ffi::OsStr;
use std::fmt::Display;
use std::fs::File;
use std::io::{self, Read};

/// More bytes than this are no yard, no plan list and no index.
const LONGEST: u64 = 1 << 20;

/// What is no yard: how its name ends, and what it is.
struct Stored {
    ending: &'static str,
    what: &'static str,
}

const LIST: Stored = Stored {
    ending: ".list",
    what: "a plan list",
};
const INDEX: Stored = Stored {
    ending: ".index",
    what: "an index",
};

/// The survey of a yard: a `.survey` file holds its bytes, any other name its text; but no name of
/// what is no yard.
pub fn read_survey(name: &OsStr, input: &mut dyn Read) -> Result<Survey, Failure> {
    for Stored { ending, what } in [LIST, INDEX] {
        if has_ending(name, ending) {
            let message = format!("a yard is needed here, and this name is that of {what}");
            return Err(named(name, message));
        }
    }
    let bytes = read(name, input)?;
    if has_ending(name, ".survey") {
        return Survey::new(bytes).map_err(|refusal| named(name, refusal));
    }
    text::read(&bytes).map_err(|error| {
        let (line, message) = (error.line, error.message);
        Failure::input(format!("{}:{line}: {message}", shown(name)))
    })
}

/// The bytes of a plan list, from a `.list` file.
pub fn read_list(name: &OsStr, input: &mut dyn Read) -> Result<Vec<u8>, Failure> {
    read_stored(name, LIST, input)
}

/// The bytes of an index, from an `.index` file.
pub fn read_index(name: &OsStr, input: &mut dyn Read) -> Result<Vec<u8>, Failure> {
    read_stored(name, INDEX, input)
}

fn read_stored(name: &OsStr, stored: Stored, input: &mut dyn Read) -> Result<Vec<u8>, Failure> {
    let Stored { ending, what } = stored;
    if has_ending(name, ending) {
        read(name, input)
    } else {
        let message = format!("the name of {what} ends in {ending}");
        Err(named(name, message))
    }
}

/// A failure about a file.
pub fn named(name: &OsStr, message: impl Display) -> Failure {
    Failure::input(format!("{}: {message}", shown(name)))
}

/// A file's name for messages.
pub fn shown(name: &OsStr) -> impl Display + '_ {
    let is_input = name == "-";
    let shown = if is_input {
        OsStr::new("standard input")
    } else {
        name
    };
    shown.display()
}

fn has_ending(name: &OsStr, ending: &str) -> bool {
    name.as_encoded_bytes().ends_with(ending.as_bytes())
}

fn read(name: &OsStr, input: &mut dyn Read) -> Result<Vec<u8>, Failure> {
    let mut bytes = Vec::new();
    let result = match name.to_str() {
        Some("-") => read_some(input, &mut bytes),
        _ => File::open(name).and_then(|mut file| read_some(&mut file, &mut bytes)),
    };
    result.map_err(|error| named(name, error))?;
    if bytes.len() as u64 > LONGEST {
        return Err(named(name, "the file is too long"));
    }
    Ok(bytes)
}

/// Reads one byte more than the longest file may have, at most.
fn read_some(source: &mut dyn Read, bytes: &mut Vec<u8>) -> io::Result<usize> {
    source.take(LONGEST + 1).read_to_end(bytes)
}
