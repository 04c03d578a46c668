//! The numbers that the host and the stage know things by, kept apart by type.

use std::fmt;

/// A variable, by the host's number for it.
#[derive(Clone, Copy, Debug, PartialEq, Eq, PartialOrd, Ord, Hash)]
pub struct IdentifierId(pub u32);

/// A block, by its id.
#[derive(Clone, Copy, Debug, PartialEq, Eq, PartialOrd, Ord, Hash)]
pub struct BlockId(pub u32);

/// A node of the registry, by its number in the sheet.
#[derive(Clone, Copy, Debug, PartialEq, Eq, PartialOrd, Ord, Hash)]
pub struct NodeId(pub u16);

/// A place in the host's source, by the host's number for it.
#[derive(Clone, Copy, Debug, Default, PartialEq, Eq, PartialOrd, Ord, Hash)]
pub struct Span(pub u32);

impl Span {
    /// No place.
    pub const NONE: Self = Self(0);

    /// Whether this stands for no place.
    #[must_use]
    pub fn is_none(self) -> bool {
        self == Self::NONE
    }
}

macro_rules! shown_as_its_number {
    ($($id:ident)*) => {$(
        impl fmt::Display for $id {
            fn fmt(&self, f: &mut fmt::Formatter<'_>) -> fmt::Result {
                self.0.fmt(f)
            }
        }
    )*};
}

shown_as_its_number! { BlockId NodeId Span }
