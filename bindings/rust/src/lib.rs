//! The scope-dependency stage, for Rust.
//!
//! One stage of a build decides on which property paths of which variables a memoised piece of a
//! page depends. It takes a [`Job`]: blocks with their predecessors and with the paths assumed to
//! be there when a block runs, a scope block, and candidates. It gives an [`Answer`], the returned
//! paths. The [`Sheet`] shows what it arrived at on the way: each block's set of paths known to be
//! neither null nor undefined, and the nodes of all paths, with those that reduction added.
//!
//! ```
//! use scope_deps::{answer, Block, BlockId, Entry, IdentifierId, Job, Path, Property};
//!
//! let athlete = Path::new(IdentifierId(1));
//! let last_session = Entry::plain(Property::Name(10));
//! let beats = Entry::plain(Property::Name(11));
//!
//! // Block 7 assumes that the athlete is there, and says nothing of the last session.
//! let job = Job::builder(BlockId(7))
//!     .block(Block::new(BlockId(7)).assuming([athlete.clone()]))
//!     .candidate(athlete.then(last_session).then(beats))
//!     .build()?;
//!
//! // So the page depends on the last session, and not on what would throw without one.
//! let answer = answer(&job)?;
//! let returned: Vec<String> = answer.iter().map(|path| format!("{path:#}")).collect();
//! assert_eq!(returned, ["1.10"]);
//! # Ok::<(), Box<dyn std::error::Error>>(())
//! ```
//!
//! A host that does not know whether a path can still change where it is read gives it as a
//! [`RawRead`], and the stage decides whether the block assumes it.
//!
//! What a block assumes is passed on to others by a propagation, of which there are two. That of
//! [`answer()`] and [`sheet()`] is promised to be safe, so that no returned path throws, for jobs
//! without loops. The strict one, of [`strict_answer`] and [`strict_sheet`], is so for all jobs;
//! where there are no loops, the two give the same.
//!
//! The stage itself is the proved library behind the C interface; no answer, no sheet and no thin
//! job ([`Job::thin`], the same job without repeated paths) comes from anywhere else. Jobs, answers
//! and sheets are written as text too, and jobs are read from it (`docs/NOTATION.md`).
//! [`explain`](mod@explain) says why each path is returned as it is, from a [`replay`] of the
//! propagation, and [`draw`](mod@draw) makes a picture.
//!
//! Three features are on by default. `library` links the library; without it there are no `answer`,
//! `sheet`, `strict_answer`, `strict_sheet`, `Job::thin`, `Stage` and `raw`, and jobs are built,
//! read and written. `explain` and `draw` are the modules of these names, and `replay` belongs to
//! `explain`.

#![deny(missing_docs)]
#![deny(unsafe_code)]

mod answer;
mod build_error;
mod builder;
mod bytes;
mod check;
#[cfg(feature = "draw")]
pub mod draw;
#[cfg(feature = "explain")]
pub mod explain;
#[cfg(feature = "explain")]
mod graph;
mod ids;
#[cfg(feature = "library")]
#[allow(unsafe_code)]
mod interface;
mod job;
pub mod limits;
mod names;
mod node_set;
pub mod notation;
mod path;
#[cfg(feature = "library")]
pub mod raw;
mod raw_read;
mod refusal;
#[cfg(feature = "explain")]
pub mod replay;
mod sheet;
#[cfg(feature = "library")]
mod stage;

pub use answer::Answer;
pub use build_error::{BuildError, Field, Wrong};
pub use builder::JobBuilder;
pub use bytes::Malformed;
pub use ids::{BlockId, IdentifierId, NodeId, Span};
pub use job::{Block, Job};
pub use names::{NameError, Named, Names, NamesIter};
pub use node_set::{NodeSet, Nodes};
pub use path::{Entry, Path, Property};
pub use raw_read::{RawRead, ReadScope};
pub use refusal::{Found, ManyNodes, Place, RawCount, Record, Refusal};
pub use sheet::{Node, Sheet};
#[cfg(feature = "library")]
pub use stage::{answer, sheet, strict_answer, strict_sheet, Stage};

/// Tests the examples of the package's README.
#[cfg(all(doctest, feature = "library"))]
#[doc = include_str!("../README.md")]
struct Readme;
