//! In place of `stage.rs` where the tool is built without the stage's library.

use super::failure::Failure;
use super::input::Input;
use super::options::Run;
use scope_deps::{Job, Refusal};

pub fn made(_: &Run, _: &Input, _: &Job) -> Result<Vec<u8>, Failure> {
    Err(Failure::BuiltWithout("library"))
}

/// No stage is there to say it, so the reader's own refusal stays.
pub fn refusal(_: &[u8]) -> Option<Refusal> {
    None
}
