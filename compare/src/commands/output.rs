//! Standard output, which may be a pipe that is closed early.

use super::failure::{Failure, unwritten};
use std::fmt;
use std::io::{self, Write};

/// Writes a line.
pub fn line(text: fmt::Arguments) -> Result<(), Failure> {
    writeln!(io::stdout(), "{text}").map_err(unwritten)
}

/// Writes bytes, all at once.
pub fn bytes(bytes: &[u8]) -> Result<(), Failure> {
    let mut out = io::stdout().lock();
    out.write_all(bytes).and_then(|()| out.flush()).map_err(unwritten)
}

/// `println!` with a failure in place of a panic.
macro_rules! say {
    ($($part:tt)*) => { $crate::commands::output::line(format_args!($($part)*)) };
}

pub(super) use say;
