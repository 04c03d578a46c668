//! The two propagations, and those that are nearly the strict one.

/// How a block's neighbours join it, and by whose text.
#[derive(Debug, Clone, Copy, PartialEq, Eq)]
pub enum Propagation {
    /// The Rust's: the neighbours that are Done.
    Existing,
    /// The Rust's text with the joining step exchanged: all neighbours, where there is one and
    /// every one is Done.
    Strict,
    /// The strict one in the harness's own words, with a mistake or without.
    Own(Option<Mistake>),
}

/// What a propagation does otherwise than the strict one.
#[derive(Debug, Clone, Copy, PartialEq, Eq)]
pub enum Mistake {
    /// Those that are Done join, which is the existing propagation.
    PassesActiveOver,
    /// All join, whatever their marks.
    JoinsActive,
    /// All join where one is Done.
    NeedsOneDone,
    /// Neighbours are not visited first, and unmarked ones count as Done.
    JoinsUnmarked,
    /// Where a block has no neighbour, every node joins: the intersection of no sets.
    JoinsAllOfNone,
    /// A set to which nothing joins is not reduced.
    ReducesWhereJoined,
    /// A block with neighbours to which nothing joins stays Active.
    DoneWhereJoined,
    /// The backward walk finds the marks of the forward walk.
    KeepsMarks,
    /// A block that is its own neighbour passes itself over.
    PassesItselfOver,
    /// The backward walk is the existing one.
    StrictForwardOnly,
    /// The forward walk is the existing one.
    StrictBackwardOnly,
}

impl Mistake {
    pub const ALL: [Self; 11] = [
        Self::PassesActiveOver,
        Self::JoinsActive,
        Self::NeedsOneDone,
        Self::JoinsUnmarked,
        Self::JoinsAllOfNone,
        Self::ReducesWhereJoined,
        Self::DoneWhereJoined,
        Self::KeepsMarks,
        Self::PassesItselfOver,
        Self::StrictForwardOnly,
        Self::StrictBackwardOnly,
    ];

    /// What is done wrong, in words.
    pub fn text(self) -> &'static str {
        match self {
            Self::PassesActiveOver => "Active neighbours passed over",
            Self::JoinsActive => "Active neighbours joined",
            Self::NeedsOneDone => "all joined where one is Done",
            Self::JoinsUnmarked => "unmarked neighbours counted as Done",
            Self::JoinsAllOfNone => "every node joined where there is no neighbour",
            Self::ReducesWhereJoined => "not reduced where nothing joins",
            Self::DoneWhereJoined => "not Done where nothing joins",
            Self::KeepsMarks => "marks kept between the walks",
            Self::PassesItselfOver => "a block passed over as its own neighbour",
            Self::StrictForwardOnly => "strict forward only",
            Self::StrictBackwardOnly => "strict backward only",
        }
    }
}
