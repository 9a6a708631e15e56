//! Links the archive of the proved planner.

use std::env;
use std::path::PathBuf;

fn main() {
    println!("cargo::rerun-if-env-changed=RANQUSTEI_ARCHIVE_DIR");
    let folder = archive_folder();
    let archive = folder.join("libcapi.a");
    println!("cargo::rerun-if-changed={}", archive.display());
    if !archive.is_file() {
        println!(
            "cargo::error={} is missing: `rt lib` in crates/capi makes it, \
             or RANQUSTEI_ARCHIVE_DIR names its folder",
            archive.display()
        );
        return;
    }
    println!("cargo::rustc-link-search=native={}", folder.display());
    println!("cargo::rustc-link-lib=static=capi");
}

/// The folder that the environment names, else the one that the Rattle kit builds into.
fn archive_folder() -> PathBuf {
    match env::var_os("RANQUSTEI_ARCHIVE_DIR") {
        Some(folder) => PathBuf::from(folder),
        None => PathBuf::from(env::var_os("CARGO_MANIFEST_DIR").unwrap_or_default())
            .join("../../crates/capi/out"),
    }
}
