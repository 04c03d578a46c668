//! The parts of the command-line tool.

pub mod commands;
mod examples;
pub mod failure;
pub mod help;
mod hex;
pub mod input;
#[cfg(feature = "library")]
mod many_nodes;
pub mod options;
mod output;
#[cfg(feature = "library")]
pub mod stage;
#[cfg(not(feature = "library"))]
#[path = "no_stage.rs"]
pub mod stage;
