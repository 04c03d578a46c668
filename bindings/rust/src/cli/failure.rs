//! What can go wrong, and the exit status for it.

use scope_deps::notation::NotationError;
use scope_deps::Refusal;
use std::process::ExitCode;
use std::{fmt, io};

pub enum Failure {
    /// The command line makes no sense.
    Misused(String),
    /// The job cannot be had from this place.
    Input { place: String, why: io::Error },
    /// The result cannot be put in this place.
    Output { place: String, why: io::Error },
    /// The text in this place is no job.
    Text { place: String, text: String, why: NotationError },
    /// What stands in this place is not what was said.
    Form { place: String, why: String },
    /// The stage turned the job from this place back.
    Refused { place: String, why: Refusal },
    /// The job from this place has too many nodes.
    #[cfg(feature = "library")]
    ManyNodes { place: String, nodes: super::many_nodes::TooMany },
    /// The second run of the propagation differs from the library's.
    #[cfg(feature = "explain")]
    Mismatch(scope_deps::explain::Mismatch),
    /// The command needs a feature without which this tool was built.
    #[cfg_attr(feature = "draw", allow(dead_code))]
    BuiltWithout(&'static str),
}

impl Failure {
    pub fn exit_code(&self) -> ExitCode {
        match self {
            Self::Misused(_) => ExitCode::from(2),
            // The job was read; `bin/scope-deps` goes on from there.
            Self::BuiltWithout("library") => ExitCode::from(3),
            _ => ExitCode::FAILURE,
        }
    }
}

impl fmt::Display for Failure {
    fn fmt(&self, f: &mut fmt::Formatter<'_>) -> fmt::Result {
        match self {
            Self::Misused(why) => write!(f, "{why}\n`scope-deps --help` shows how it is used"),
            Self::Input { place, why } => write!(f, "{place} cannot be read: {why}"),
            Self::Output { place, why } => write!(f, "{place} cannot be written: {why}"),
            Self::Text { place, text, why } => {
                let (line, column) = (why.line(), why.column());
                write!(f, "{place}:{line}:{column}: {}\n{}", why.message(), why.excerpt(text))
            }
            Self::Form { place, why } => write!(f, "{place}: {why}"),
            Self::Refused { place, why } => write!(f, "{place}: {why}"),
            #[cfg(feature = "library")]
            Self::ManyNodes { place, nodes } => write!(f, "{place}: {}; {nodes}", Refusal::ManyNodes),
            #[cfg(feature = "explain")]
            Self::Mismatch(why) => write!(f, "{why}"),
            Self::BuiltWithout("library") => {
                write!(f, "this tool was built without the stage's library (feature `library`)")
            }
            Self::BuiltWithout(feature) => write!(f, "this tool was built without the feature `{feature}`"),
        }
    }
}
