//! Jobs and paths as text, and answers and sheets too. `docs/NOTATION.md` has the grammar.
//!
//! [`Job`](crate::Job), [`Path`](crate::Path) and [`RawRead`](crate::RawRead) are read by `parse`
//! and shown by `Display`, and what is shown reads back to the same value.
//! [`Answer`](crate::Answer) and [`Sheet`](crate::Sheet) are shown only. [`Names`](crate::Names)
//! are read and shown too, and all others can be shown with them.
//!
//! ```
//! use scope_deps::Job;
//!
//! let wrong = "scope 7\nblock 7 after x".parse::<Job>().unwrap_err();
//! assert_eq!((wrong.line(), wrong.column()), (2, 15));
//! assert_eq!(wrong.to_string(), "line 2, column 15: a predecessor's id is due here, not `x`");
//! ```

mod cursor;
mod error;
mod job;
mod names;
mod number;
mod path;
mod positions;
mod raw_read;
pub(crate) mod show;
mod with_names;

pub use error::NotationError;
pub use with_names::WithNames;
