//! The bytes of jobs, and the fields that jobs, answers and sheets share.

mod fields;
mod job;
pub(crate) mod lengths;
mod write;

pub use fields::Malformed;
pub(crate) use fields::{Fault, Fields};
pub(crate) use job::read_job;
pub(crate) use write::write_job;
