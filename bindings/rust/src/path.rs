//! Paths: a variable, and the properties read from it one after the other.

use crate::ids::{IdentifierId, Span};
use crate::limits;

/// A property's key. Two are the same where kind and value are, so name 5 and number 5 differ, and
/// so do +0 and −0.
#[derive(Clone, Copy, Debug, PartialEq, Eq, Hash)]
pub enum Property {
    /// A name, by the host's number for it.
    Name(u64),
    /// A number, as the 64 bits of the float. See [`Property::number`].
    Number(u64),
}

impl Property {
    /// The property whose key is a number.
    ///
    /// ```
    /// use scope_deps::Property;
    /// assert_ne!(Property::number(0.0), Property::number(-0.0));
    /// assert_eq!(Property::number(1.5), Property::Number(0x3ff8_0000_0000_0000));
    /// ```
    #[must_use]
    pub fn number(value: f64) -> Self {
        Self::Number(value.to_bits())
    }
}

/// One step of a path: a property, read by `.` or by `?.`.
#[derive(Clone, Copy, Debug, PartialEq, Eq, Hash)]
pub struct Entry {
    /// The property that is read.
    pub property: Property,
    /// Whether it is read by `?.`, which ends the whole chain where the base is null or undefined.
    pub optional: bool,
    /// Where it stands in the host's source.
    pub span: Span,
}

impl Entry {
    /// The property read by `.`, with no span.
    #[must_use]
    pub fn plain(property: Property) -> Self {
        Self { property, optional: false, span: Span::NONE }
    }

    /// The property read by `?.`, with no span.
    #[must_use]
    pub fn optional(property: Property) -> Self {
        Self { property, optional: true, span: Span::NONE }
    }

    /// The same entry at a place in the source.
    #[must_use]
    pub fn at(self, span: Span) -> Self {
        Self { span, ..self }
    }
}

/// A variable and its entries, of which a job takes at most 16.
///
/// It is shown in the notation of `docs/NOTATION.md` and read from it; the alternate form (`{:#}`)
/// leaves out `reactive` and spans.
///
/// ```
/// use scope_deps::{Entry, IdentifierId, Path, Property, Span};
///
/// let path = Path::new(IdentifierId(1))
///     .with_span(Span(5))
///     .then(Entry::optional(Property::Name(10)).at(Span(6)))
///     .then(Entry::plain(Property::number(0.0)));
/// assert_eq!(path.to_string(), "1@5?.10@6[0]");
/// assert_eq!(format!("{path:#}"), "1?.10[0]");
/// assert_eq!("1@5?.10@6[0]".parse::<Path>()?, path);
/// # Ok::<(), Box<dyn std::error::Error>>(())
/// ```
#[derive(Clone, Debug, PartialEq, Eq, Hash)]
pub struct Path {
    identifier: IdentifierId,
    reactive: bool,
    span: Span,
    entries: Vec<Entry>,
}

impl Path {
    /// The variable itself: no entries, not reactive, no span.
    #[must_use]
    pub fn new(identifier: IdentifierId) -> Self {
        Self { identifier, reactive: false, span: Span::NONE, entries: Vec::new() }
    }

    /// The same path, reactive or not.
    #[must_use]
    pub fn with_reactive(self, reactive: bool) -> Self {
        Self { reactive, ..self }
    }

    /// The same path with this span of its own.
    #[must_use]
    pub fn with_span(self, span: Span) -> Self {
        Self { span, ..self }
    }

    /// The path with one more entry at its end. A job takes at most 16, as
    /// [`build`](crate::JobBuilder::build) checks.
    #[must_use]
    pub fn then(mut self, entry: Entry) -> Self {
        self.entries.push(entry);
        self
    }

    /// The path with these entries after those that it has, on the same terms.
    #[must_use]
    pub fn with_entries(mut self, entries: impl IntoIterator<Item = Entry>) -> Self {
        self.extend(entries);
        self
    }

    /// The variable.
    #[must_use]
    pub fn identifier(&self) -> IdentifierId {
        self.identifier
    }

    /// Whether the variable is reactive.
    #[must_use]
    pub fn is_reactive(&self) -> bool {
        self.reactive
    }

    /// The path's own span.
    #[must_use]
    pub fn span(&self) -> Span {
        self.span
    }

    /// The entries, in the order in which they are read.
    #[must_use]
    pub fn entries(&self) -> &[Entry] {
        &self.entries
    }

    /// The entries, taken out of the path.
    #[must_use]
    pub fn into_entries(self) -> Vec<Entry> {
        self.entries
    }

    /// The path of the first `count` entries, or the whole path where it has fewer.
    #[must_use]
    pub fn prefix(&self, count: usize) -> Self {
        let entries = self.entries[..count.min(self.entries.len())].to_vec();
        Self { entries, ..*self }
    }

    /// A path with room for the entries of any path of a job.
    pub(crate) fn roomy() -> Self {
        let entries = Vec::with_capacity(limits::ENTRIES);
        Self { identifier: IdentifierId(0), reactive: false, span: Span::NONE, entries }
    }

    /// Makes of this the variable itself, and keeps the room for entries.
    pub(crate) fn restart(&mut self, identifier: IdentifierId, reactive: bool, span: Span) {
        self.entries.clear();
        (self.identifier, self.reactive, self.span) = (identifier, reactive, span);
    }

    /// Whether this path's variable and properties start the other's. Optional marks and spans play
    /// no part.
    #[must_use]
    pub fn names_start(&self, other: &Self) -> bool {
        let paired = self.entries.iter().zip(&other.entries);
        self.identifier == other.identifier
            && self.entries.len() <= other.entries.len()
            && paired.into_iter().all(|(mine, theirs)| mine.property == theirs.property)
    }

    /// Whether both read the same properties of the same variable. Optional marks and spans play no
    /// part.
    #[must_use]
    pub fn same_names(&self, other: &Self) -> bool {
        self.entries.len() == other.entries.len() && self.names_start(other)
    }

    /// Whether both are the same variable with the same properties and optional marks. Spans play
    /// no part.
    #[must_use]
    pub fn same_entries(&self, other: &Self) -> bool {
        let mut paired = self.entries.iter().zip(&other.entries);
        self.same_names(other) && paired.all(|(mine, theirs)| mine.optional == theirs.optional)
    }
}

impl Extend<Entry> for Path {
    fn extend<I: IntoIterator<Item = Entry>>(&mut self, entries: I) {
        self.entries.extend(entries);
    }
}
