//! What is written, and where.

use super::failure::Failure;
use super::options::Run;
use std::fs::{self, Metadata};
use std::io::{self, Write};

pub fn write(bytes: &[u8], file: Option<&str>) -> Result<(), Failure> {
    let place = file.unwrap_or("standard output").to_string();
    let written = match file {
        Some(file) => fs::write(file, bytes),
        None => {
            let mut out = io::stdout().lock();
            out.write_all(bytes).and_then(|()| out.flush())
        }
    };
    written.map_err(|why| Failure::Output { place, why })
}

/// That the file to be written is none of those that are read.
pub fn check_not_read(run: &Run) -> Result<(), Failure> {
    let Some(Ok(output)) = run.output.as_deref().map(fs::metadata) else { return Ok(()) };
    let input = match &run.input {
        Some(file) => fs::metadata(file).ok(),
        None => standard_input(),
    };
    let names = run.names.as_deref().and_then(|file| fs::metadata(file).ok());
    if [input, names].iter().flatten().any(|read| are_one_file(read, &output)) {
        let file = run.output.as_deref().unwrap_or_default();
        return Err(Failure::Misused(format!("`{file}` is read, and would be written over")));
    }
    Ok(())
}

#[cfg(unix)]
fn are_one_file(one: &Metadata, other: &Metadata) -> bool {
    use std::os::unix::fs::MetadataExt;
    one.is_file() && (one.dev(), one.ino()) == (other.dev(), other.ino())
}

#[cfg(unix)]
fn standard_input() -> Option<Metadata> {
    use std::os::fd::AsFd;
    let input = io::stdin().as_fd().try_clone_to_owned().ok()?;
    fs::File::from(input).metadata().ok()
}

/// Elsewhere no file is known for sure.
#[cfg(not(unix))]
fn are_one_file(_: &Metadata, _: &Metadata) -> bool {
    false
}

#[cfg(not(unix))]
fn standard_input() -> Option<Metadata> {
    None
}
