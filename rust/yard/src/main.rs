//! The program `yard`.

use std::env;
use std::ffi::OsStr;
use std::io::{self, ErrorKind, Write};
use std::process::ExitCode;
use yard::{run, store, store_all_new, store_new, Failure, Output};

fn main() -> ExitCode {
    match run(env::args_os().skip(1), &mut io::stdin().lock()).and_then(deliver) {
        Ok(()) => ExitCode::SUCCESS,
        Err(failure) => {
            // Nobody is left to tell if this fails.
            let _ = writeln!(io::stderr(), "{}", failure.message);
            ExitCode::from(failure.status)
        }
    }
}

fn deliver(output: Output) -> Result<(), Failure> {
    match output {
        Output::Printed(bytes) => match print(&bytes) {
            // A reader that has read enough is no failure.
            Err(error) if error.kind() != ErrorKind::BrokenPipe => {
                Err(Failure::input(format!("standard output: {error}")))
            }
            _ => Ok(()),
        },
        Output::File { name, bytes } => {
            store(&name, &bytes).map_err(|error| unwritten(&name, error))
        }
        Output::NewFile { name, bytes } => {
            store_new(&name, &bytes).map_err(|error| unwritten(&name, error))
        }
        Output::NewFiles { folder, files } => {
            store_all_new(&folder, &files).map_err(|(name, error)| unwritten(&name, error))
        }
    }
}

/// The failure of a file or a folder that is not written.
fn unwritten(name: &OsStr, error: io::Error) -> Failure {
    Failure::input(format!("{}: {error}", name.display()))
}

fn print(bytes: &[u8]) -> io::Result<()> {
    let mut out = io::stdout().lock();
    out.write_all(bytes)?;
    out.flush()
}
