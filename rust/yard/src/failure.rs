//! What goes wrong, as one sentence with an exit status.

use std::fmt;

/// A sentence for the user, and the exit status that goes with it.
#[derive(Clone, PartialEq, Eq, Debug)]
pub struct Failure {
    /// 1 for a refusal or bad input, 2 for wrong usage.
    pub status: u8,
    /// What is wrong.
    pub message: String,
}

impl Failure {
    /// A refusal or bad input.
    pub fn input(message: impl fmt::Display) -> Failure {
        Failure {
            status: 1,
            message: message.to_string(),
        }
    }

    /// A command line that is none of the tool's.
    pub fn usage(message: impl fmt::Display) -> Failure {
        Failure {
            status: 2,
            message: format!("{message}; `yard help` shows the commands"),
        }
    }
}
