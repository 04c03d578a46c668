//! The command-line tool. `bin/scope-deps` builds it and runs it.

mod cli;

use cli::commands;
use cli::failure::Failure;
use cli::options::Request;
use std::io::ErrorKind;
use std::process::ExitCode;

fn main() -> ExitCode {
    let done = cli::options::words().and_then(|words| Request::read(&words)).and_then(commands::run);
    match done {
        Ok(()) => ExitCode::SUCCESS,
        // Whoever reads the output has closed it, and wants no message.
        Err(Failure::Output { why, .. }) if why.kind() == ErrorKind::BrokenPipe => ExitCode::FAILURE,
        Err(failure) => {
            eprintln!("scope-deps: {failure}");
            failure.exit_code()
        }
    }
}
