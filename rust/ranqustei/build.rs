//! Stops the build if the archive is of another version than the calls declared for it.

use ranqustei_sys::{ranqustei_version, VERSION};

fn main() {
    println!("cargo::rerun-if-changed=build.rs");
    let found = ranqustei_version();
    if found != VERSION {
        println!(
            "cargo::error=the archive libcapi.a has version {found}, and this crate calls version {VERSION}: \
             `rt lib` in crates/capi makes it anew"
        );
    }
}
