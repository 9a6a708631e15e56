//! The examples of the documents: the tool prints what they say.

use crate::tool::repository;
use std::fs;
use std::path::{Path, PathBuf};
use std::process::Command;

/// A command of a document, and what the document says that it prints.
struct Example {
    command: String,
    printed: String,
}

/// The indented commands `$ yard …` of a document, each with the indented lines after it.
fn examples(document: &str) -> Vec<Example> {
    let mut examples: Vec<Example> = Vec::new();
    let mut is_open = false;
    for line in document.lines() {
        let indented = line.strip_prefix("    ");
        if let Some(command) = indented.and_then(|line| line.strip_prefix("$ yard ")) {
            examples.push(Example {
                command: command.to_string(),
                printed: String::new(),
            });
            is_open = true;
        } else if let (Some(line), true, Some(last)) = (indented, is_open, examples.last_mut()) {
            last.printed += &format!("{line}\n");
        } else {
            is_open = false;
        }
    }
    examples
}

/// A folder with the examples and room for what the commands write.
fn folder() -> PathBuf {
    let folder = Path::new(env!("CARGO_TARGET_TMPDIR")).join("documents");
    // What an earlier run has written would stand in the way.
    let _ = fs::remove_dir_all(&folder);
    for part in ["examples/yards", "docs/pictures"] {
        fs::create_dir_all(folder.join(part)).expect("the scratch folder can be written");
    }
    for example in [
        "yards/survey-a.txt",
        "yards/orchard.txt",
        "yards/orchard-winter.txt",
        "yards/heather.txt",
        "yards/solar.txt",
        "yards/valley.txt",
        "positions.survey",
        "cut-off.survey",
    ] {
        let name = format!("examples/{example}");
        fs::copy(repository(&name), folder.join(&name)).expect("the example is there");
    }
    folder
}

#[test]
fn documents_show_what_the_tool_prints() {
    let folder = folder();
    for document in ["README.md", "rust/README.md"] {
        let text = fs::read_to_string(repository(document)).expect("the document is there");
        for example in examples(&text) {
            let mut program = Command::new(env!("CARGO_BIN_EXE_yard"));
            program
                .args(example.command.split_whitespace())
                .current_dir(&folder);
            let output = program.output().expect("the program runs");
            let printed = [output.stdout, output.stderr].concat();
            assert_eq!(
                String::from_utf8(printed),
                Ok(example.printed),
                "yard {}",
                example.command
            );
        }
    }
}
