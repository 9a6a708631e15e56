//! The build takes an archive of the right version and no other, and the header declares the same.

use std::path::Path;
use std::process::{Command, Output};
use std::{env, fs};

fn run(program: &mut Command) -> Output {
    program.output().expect("the program can be run")
}

/// Builds the crate with an archive that has the version alone; gives what the build says if it fails.
fn build(version: u32) -> Result<(), String> {
    let folder = Path::new(env!("CARGO_TARGET_TMPDIR")).join(format!("version-{version}"));
    fs::create_dir_all(&folder).expect("the scratch folder can be written");
    let source = format!("unsigned ranqustei_version(void) {{ return {version}; }}\n");
    fs::write(folder.join("version.c"), source).expect("the scratch folder can be written");
    for words in ["cc -c version.c", "ar rc libcapi.a version.o"] {
        let mut words = words.split(' ');
        let program = words.next().unwrap_or_default();
        let made = run(Command::new(program).args(words).current_dir(&folder));
        assert!(made.status.success(), "{made:?}");
    }
    let mut cargo = Command::new(env!("CARGO"));
    cargo
        .args(["check", "--offline", "--target-dir", "target"])
        .arg("--manifest-path")
        .arg(Path::new(env!("CARGO_MANIFEST_DIR")).join("Cargo.toml"))
        .env("RANQUSTEI_ARCHIVE_DIR", &folder)
        .current_dir(&folder);
    let built = run(&mut cargo);
    match built.status.success() {
        true => Ok(()),
        false => Err(String::from_utf8_lossy(&built.stderr).into_owned()),
    }
}

#[test]
fn only_an_archive_of_the_right_version_builds() {
    assert_eq!(build(ranqustei_sys::VERSION), Ok(()));
    let other = ranqustei_sys::VERSION + 1;
    let said = build(other).expect_err("another version is refused");
    assert!(
        said.contains(&format!("libcapi.a has version {other}")),
        "{said}"
    );
}

#[test]
fn the_header_has_the_same_figures() {
    let header = include_str!("../../../c/ranqustei.h");
    let figure = |name: &str| {
        let (_, after) = header.split_once(&format!(" RANQUSTEI_{name} = "))?;
        let digits = after.split(|sign: char| !sign.is_ascii_digit());
        digits.map(str::parse::<usize>).next()?.ok()
    };
    assert_eq!(figure("VERSION"), Some(ranqustei_sys::VERSION as usize));
    let surveys = ranqustei_sys::SMALL_SURVEYS as usize;
    assert_eq!(figure("SMALL_SURVEYS"), Some(surveys));
    let bytes = ranqustei_sys::SMALL_SURVEY_BYTES;
    assert_eq!(figure("SMALL_SURVEY_BYTES"), Some(bytes));
}
