//! Raw reads: paths that instructions of a block read, of which the stage decides whether the block
//! assumes them.

use crate::path::Path;
use std::ops::Range;

/// A path that an instruction of a block reads, and what the host knows of its variable. Where the
/// variable can no longer change at that instruction the path is kept, and the block assumes it;
/// otherwise it is left out.
///
/// It is shown in the notation of `docs/NOTATION.md`, without the word `reads`, and read from it.
///
/// ```
/// use scope_deps::{IdentifierId, Path, RawRead};
///
/// // The variable is made in a scope from instruction 1 on, and no longer changes at 5.
/// let week = Path::new(IdentifierId(2));
/// let early = RawRead::new(week.clone(), 3, 1..5, Some(1..5));
/// let late = RawRead::new(week, 5, 1..5, Some(1..5));
/// assert!(!early.is_kept() && late.is_kept());
/// assert_eq!(early.to_string(), "2 at 3 range 1 to 5 scope 1 to 5");
/// assert_eq!("2 at 3 range 1 to 5 scope 1 to 5".parse::<RawRead>()?, early);
///
/// // A host that knows better says so.
/// assert!(early.with_known_immutable(true).is_kept());
/// # Ok::<(), Box<dyn std::error::Error>>(())
/// ```
#[derive(Clone, Debug, PartialEq, Eq, Hash)]
pub struct RawRead {
    /// The instruction that reads the path.
    pub instruction: u32,
    /// The first instruction of the variable's mutable range. A job takes at most 4,294,967,294, as
    /// [`build`](crate::JobBuilder::build) checks.
    pub range_start: u32,
    /// The end of the variable's mutable range, which is not in it.
    pub range_end: u32,
    /// The scope in which the variable is made, if there is one.
    pub scope: ReadScope,
    /// Whether the host knows that the variable does not change.
    pub known_immutable: bool,
    /// The path, which is known to be there where it is kept.
    pub path: Path,
}

/// The scope of a raw read's variable, if there is one. A job's bytes have two numbers where there
/// is none, too; they are kept, and play no part.
#[derive(Clone, Copy, Debug, PartialEq, Eq, Hash)]
pub enum ReadScope {
    /// There is a scope.
    Some {
        /// The first instruction of the scope's range.
        start: u32,
        /// The end of the scope's range, which is not in it.
        end: u32,
    },
    /// There is none, whatever the numbers.
    None {
        /// The number in the place of a start.
        start: u32,
        /// The number in the place of an end.
        end: u32,
    },
}

impl ReadScope {
    /// No scope, as it is written where nothing else is said.
    pub const NONE: Self = Self::None { start: 0, end: 0 };

    /// The scope's range, if there is a scope.
    #[must_use]
    pub fn range(self) -> Option<Range<u32>> {
        match self {
            Self::Some { start, end } => Some(start..end),
            Self::None { .. } => None,
        }
    }

    /// Whether there is a scope, and the two numbers.
    pub(crate) fn fields(self) -> (bool, u32, u32) {
        match self {
            Self::Some { start, end } => (true, start, end),
            Self::None { start, end } => (false, start, end),
        }
    }

    pub(crate) fn of_fields((has_scope, start, end): (bool, u32, u32)) -> Self {
        if has_scope {
            Self::Some { start, end }
        } else {
            Self::None { start, end }
        }
    }
}

impl RawRead {
    /// A read of the path by an instruction, with the mutable range of its variable and the range
    /// of the variable's scope, if it has one. Nothing more is known of the variable.
    #[must_use]
    pub fn new(path: Path, instruction: u32, range: Range<u32>, scope: Option<Range<u32>>) -> Self {
        let Range { start: range_start, end: range_end } = range;
        let scope = scope.map_or(ReadScope::NONE, |Range { start, end }| ReadScope::Some { start, end });
        Self { instruction, range_start, range_end, scope, known_immutable: false, path }
    }

    /// The same read of a variable that is known not to change, or not.
    #[must_use]
    pub fn with_known_immutable(self, known_immutable: bool) -> Self {
        Self { known_immutable, ..self }
    }

    /// Whether the block assumes the path: it does, unless the variable can change at the
    /// instruction and is not known to be immutable. It can where its range is longer than one
    /// instruction, it has a scope, and the instruction is in the scope's range.
    ///
    /// The stage decides by itself; this says the same.
    #[must_use]
    pub fn is_kept(&self) -> bool {
        self.is_immutable_at_instr()
    }

    fn is_immutable_at_instr(&self) -> bool {
        let mutable_at_instr = u64::from(self.range_end) > u64::from(self.range_start) + 1
            && self.scope.range().is_some_and(|range| in_range(self.instruction, &range));
        !mutable_at_instr || self.known_immutable
    }
}

fn in_range(instruction: u32, range: &Range<u32>) -> bool {
    instruction >= range.start && instruction < range.end
}
