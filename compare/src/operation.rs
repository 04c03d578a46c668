//! The operations of the stage.

use crate::job::limits;

/// An operation, in the order of the lists.
#[derive(Debug, Clone, Copy, PartialEq, Eq)]
pub enum Operation {
    Answer,
    Sheet,
    Thin,
    StrictAnswer,
    StrictSheet,
}

impl Operation {
    pub const ALL: [Self; 5] = [Self::Answer, Self::Sheet, Self::Thin, Self::StrictAnswer, Self::StrictSheet];

    /// The name of its program.
    pub fn name(self) -> &'static str {
        match self {
            Self::Answer => "answer",
            Self::Sheet => "sheet",
            Self::Thin => "thin",
            Self::StrictAnswer => "strict_answer",
            Self::StrictSheet => "strict_sheet",
        }
    }

    pub fn named(name: &str) -> Option<Self> {
        Self::ALL.into_iter().find(|operation| operation.name() == name)
    }

    /// Who says what is due.
    pub fn judge(self) -> &'static str {
        match self {
            Self::Answer | Self::Sheet => "the Rust",
            Self::Thin | Self::StrictAnswer | Self::StrictSheet => "the harness",
        }
    }

    /// Its shortest out buffer.
    pub fn least_bytes(self) -> usize {
        if self == Self::Thin { limits::THIN_BYTES } else { limits::OUT_BYTES }
    }
}
