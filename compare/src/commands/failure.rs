//! What can go wrong, and the exit status for it.

use std::fmt;
use std::io::{self, ErrorKind};
use std::process::ExitCode;

pub enum Failure {
    /// Something failed, or the two stages differ.
    Failed(String),
    /// The command line makes no sense.
    Misused(String),
    /// The Rust source is needed and absent.
    NoRust(String),
    /// Whoever reads standard output has closed it.
    Closed,
}

pub fn failed(why: impl Into<String>) -> Failure {
    Failure::Failed(why.into())
}

pub fn misused(why: impl Into<String>) -> Failure {
    Failure::Misused(why.into())
}

/// Standard output could not be written.
pub fn unwritten(why: io::Error) -> Failure {
    match why.kind() {
        ErrorKind::BrokenPipe => Failure::Closed,
        _ => failed(format!("standard output cannot be written: {why}")),
    }
}

impl Failure {
    pub fn exit_code(&self) -> ExitCode {
        match self {
            Self::Failed(_) | Self::Closed => ExitCode::FAILURE,
            Self::Misused(_) => ExitCode::from(2),
            Self::NoRust(_) => ExitCode::from(3),
        }
    }
}

impl fmt::Display for Failure {
    fn fmt(&self, f: &mut fmt::Formatter<'_>) -> fmt::Result {
        match self {
            Self::Failed(why) | Self::NoRust(why) => write!(f, "{why}"),
            Self::Misused(why) => write!(f, "{why}\n`compare/oracle --help` shows how it is used"),
            Self::Closed => write!(f, "standard output was closed"),
        }
    }
}
