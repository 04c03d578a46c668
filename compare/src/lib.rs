//! Runs the Rust source of the scope-dependency stage as an oracle, and compares the
//! library of the stage with it.

pub mod arena;
#[cfg(all(library, reference))]
pub mod bench;
pub mod check;
pub mod comparison;
pub mod count_mistakes;
pub mod counts;
pub mod cover;
pub mod cutter;
pub mod entering;
pub mod examples;
pub mod fx;
pub mod generate;
pub mod hir;
pub mod job;
pub mod library;
pub mod list;
#[cfg(target_arch = "x86_64")]
pub mod memory;
pub mod notation;
pub mod operation;
pub mod oracle;
pub mod output;
pub mod prng;
pub mod programs;
pub mod progress;
pub mod propagation;
pub mod read_mistakes;
pub mod reader;
pub mod reads;
#[cfg(reference)]
pub mod reference;
pub mod rounds;
pub mod start_mistakes;
pub mod store;
pub mod thin;
pub mod worst;
