//! Running the tool and finding files.

use std::ffi::OsString;
use std::fs;
use std::path::{Path, PathBuf};
use std::process::Command;
use yard::Output;

/// The result of a command in text, or its exit status and message.
pub type Answer = Result<String, (u8, String)>;

/// Runs the tool on words and standard input.
pub fn run(words: &[&str], input: impl AsRef<[u8]>) -> Answer {
    run_bytes(words, input).map(|bytes| String::from_utf8(bytes).expect("the result is text"))
}

/// Runs the tool for a result in bytes, wherever they go; several files one after the other.
pub fn run_bytes(words: &[&str], input: impl AsRef<[u8]>) -> Result<Vec<u8>, (u8, String)> {
    let words = words.iter().map(OsString::from);
    let output = yard::run(words, &mut input.as_ref());
    let bytes = |output| match output {
        Output::Printed(bytes) | Output::File { bytes, .. } | Output::NewFile { bytes, .. } => {
            bytes
        }
        Output::NewFiles { files, .. } => files.into_iter().flat_map(|(_, bytes)| bytes).collect(),
    };
    output
        .map(bytes)
        .map_err(|failure| (failure.status, failure.message))
}

/// The program itself, with these words.
pub fn program(words: &[&str]) -> Command {
    let mut command = Command::new(env!("CARGO_BIN_EXE_yard"));
    command.args(words);
    command
}

/// What the tool says of wrong words.
pub fn misused<T>(message: &str) -> Result<T, (u8, String)> {
    Err((2, format!("{message}; `yard help` shows the commands")))
}

/// A file of the repository.
pub fn repository(path: &str) -> String {
    let root = Path::new(env!("CARGO_MANIFEST_DIR")).join("../..");
    root.join(path).display().to_string()
}

/// A file that a test writes.
pub fn scratch(name: &str, bytes: impl AsRef<[u8]>) -> String {
    let path = PathBuf::from(env!("CARGO_TARGET_TMPDIR")).join(name);
    fs::write(&path, bytes).expect("the scratch folder can be written");
    path.display().to_string()
}

/// Survey A as text.
pub fn text_a() -> String {
    fs::read_to_string(repository("examples/yards/survey-a.txt")).expect("the example is there")
}

/// The names of all example yards, as text and as surveys; not those that the planner refuses.
pub fn example_yards() -> Vec<String> {
    let files = ["examples", "examples/yards"]
        .map(|folder| fs::read_dir(repository(folder)).expect("a folder"));
    let paths = files
        .into_iter()
        .flatten()
        .map(|file| file.expect("a file").path());
    let names = paths.map(|path| path.display().to_string());
    let is_yard = |name: &String| name.ends_with(".txt") || name.ends_with(".survey");
    let refused = ["refused", "long", "cut-off", "all-at-rest", "positions"];
    let refused = refused.map(|name| format!("/{name}.survey"));
    let is_refused = |name: &String| refused.iter().any(|file| name.ends_with(file));
    names
        .filter(|name| is_yard(name) && !is_refused(name))
        .collect()
}
