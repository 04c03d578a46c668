//! The command line. `compare/oracle` builds this program and runs it.

mod commands;

use commands::failure::Failure;
use std::io::{self, Write};
use std::process::ExitCode;

fn main() -> ExitCode {
    let words: Vec<String> = std::env::args().skip(1).collect();
    let words: Vec<&str> = words.iter().map(String::as_str).collect();
    match commands::run(&words) {
        Ok(()) => ExitCode::SUCCESS,
        // Whoever reads the output has closed it, and wants no message.
        Err(Failure::Closed) => ExitCode::FAILURE,
        Err(failure) => {
            let _ = writeln!(io::stderr(), "oracle: {failure}");
            failure.exit_code()
        }
    }
}
