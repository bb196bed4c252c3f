//! What can be wrong, in one line.

use std::fmt;
use std::io;
use std::process::ExitCode;

use crate::convert::NOT_OLD;
use crate::report::STOPPED;

/// One line for the person who gave the command.
#[derive(Debug)]
pub enum Problem {
    /// The command makes no sense.
    Usage(String),
    /// The command is clear, but what it is about is wrong.
    Input(String),
    /// A report stopped, and is printed as far as it goes.
    Stopped(String),
    /// A recording is not in the old form, and was not converted.
    NotOld(String),
}

impl Problem {
    /// A failed read or write.
    pub fn io(what: impl fmt::Display, error: &io::Error) -> Problem {
        Problem::Input(format!("{what}: {error}"))
    }

    /// The exit status.
    pub fn code(&self) -> ExitCode {
        match self {
            Problem::Usage(_) => ExitCode::from(2),
            Problem::Input(_) => ExitCode::FAILURE,
            Problem::Stopped(_) => ExitCode::from(STOPPED),
            Problem::NotOld(_) => ExitCode::from(NOT_OLD),
        }
    }
}

impl fmt::Display for Problem {
    fn fmt(&self, f: &mut fmt::Formatter<'_>) -> fmt::Result {
        match self {
            Problem::Usage(line)
            | Problem::Input(line)
            | Problem::Stopped(line)
            | Problem::NotOld(line) => f.write_str(line),
        }
    }
}
