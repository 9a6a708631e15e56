//! Writing results to files.

use std::ffi::{OsStr, OsString};
use std::fs::{self, File};
use std::io::{self, ErrorKind, Write};
use std::path::{Path, PathBuf};

/// Writes a file whole or not at all: what stood there stays until all bytes are on the disk.
///
/// # Errors
/// The file, or `FILE.part` beside it, cannot be written; `FILE.part` is there already.
pub fn store(file: &OsStr, bytes: &[u8]) -> io::Result<()> {
    let file = fs::canonicalize(file).unwrap_or_else(|_| PathBuf::from(file));
    if keeps_nothing(&file) {
        return fs::write(file, bytes);
    }
    let mut part = file.clone().into_os_string();
    part.push(".part");
    let mut new = File::create_new(&part)?;
    let written = new.write_all(bytes).and_then(|()| new.sync_all());
    written
        .and_then(|()| fs::rename(&part, &file))
        .inspect_err(|_| discard(Path::new(&part)))
}

/// Writes a file that is not there yet. One that has just these bytes is left as it is.
///
/// # Errors
/// Another file is there already, and stays as it is; or it cannot be written, and is not there.
pub fn store_new(file: &OsStr, bytes: &[u8]) -> io::Result<()> {
    let file = Path::new(file);
    if keeps_nothing(file) {
        return fs::write(file, bytes);
    }
    match File::create_new(file) {
        Ok(mut new) => new.write_all(bytes).inspect_err(|_| discard(file)),
        Err(error) if error.kind() == ErrorKind::AlreadyExists => keep(file, bytes),
        Err(error) => Err(error),
    }
}

/// Writes files that are not there yet into a folder, which is made if it is missing. Those that have
/// just their bytes are left as they are, so that a run that was cut off can be made again.
///
/// # Errors
/// The folder cannot be made. Another file is there under one of the names: nothing is written then.
/// One of them cannot be written: those before it stay. The name is that of the folder or of the file.
pub fn store_all_new(
    folder: &OsStr,
    files: &[(String, Vec<u8>)],
) -> Result<(), (OsString, io::Error)> {
    fs::create_dir_all(folder).map_err(|error| (folder.to_owned(), error))?;
    let path = |name: &String| Path::new(folder).join(name);
    let named = |name, error| (path(name).into_os_string(), error);
    for (name, bytes) in files {
        if fs::symlink_metadata(path(name)).is_ok() {
            keep(&path(name), bytes).map_err(|error| named(name, error))?;
        }
    }
    for (name, bytes) in files {
        store_new(path(name).as_os_str(), bytes).map_err(|error| named(name, error))?;
    }
    Ok(())
}

/// Leaves a file as it is, if it has just these bytes.
fn keep(file: &Path, bytes: &[u8]) -> io::Result<()> {
    match fs::read(file).is_ok_and(|old| old == bytes) {
        true => Ok(()),
        false => Err(io::Error::new(
            ErrorKind::AlreadyExists,
            "another file is there already, and is not written over",
        )),
    }
}

/// Whether a name is that of a device or a pipe, which keeps nothing that could be lost.
fn keeps_nothing(file: &Path) -> bool {
    file.exists() && !file.is_file()
}

/// Removes what was written in vain; a failure here adds nothing to the one that led to it.
fn discard(part: &Path) {
    let _ = fs::remove_file(part);
}
