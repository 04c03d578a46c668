//! Paths and what has paths, shown with names where there are any. All that is shown of a path is
//! shown here.

use super::number::show_bits;
use crate::answer::Answer;
use crate::ids::{IdentifierId, Span};
use crate::names::{Named, Names, NONE};
use crate::path::{Entry, Path, Property};
use crate::raw_read::RawRead;
use crate::sheet::Sheet;
use std::fmt;

/// Something shown with names: `athlete.lastSession`, and not `1.10`. What has no name is shown by
/// its number.
///
/// The alternate form (`{:#}`) of a path, a raw read or an entry leaves out `reactive` and spans.
#[derive(Clone, Copy, Debug)]
#[must_use = "this is to be shown"]
pub struct WithNames<'a, T> {
    pub(super) shown: &'a T,
    pub(super) names: &'a Names,
}

macro_rules! shown_with_names {
    ($($shown:ident)*) => {$(
        impl $shown {
            /// Shows this with names.
            pub fn with_names<'a>(&'a self, names: &'a Names) -> WithNames<'a, Self> {
                WithNames { shown: self, names }
            }
        }

        impl fmt::Display for $shown {
            fn fmt(&self, f: &mut fmt::Formatter<'_>) -> fmt::Result {
                self.with_names(&NONE).fmt(f)
            }
        }
    )*};
}

shown_with_names! { IdentifierId Property Entry Path RawRead Answer Sheet }

impl fmt::Display for WithNames<'_, IdentifierId> {
    fn fmt(&self, f: &mut fmt::Formatter<'_>) -> fmt::Result {
        match self.names.get(Named::Variable(*self.shown)) {
            Some(name) => write!(f, "{name}"),
            None => write!(f, "{}", self.shown.0),
        }
    }
}

impl fmt::Display for WithNames<'_, Property> {
    fn fmt(&self, f: &mut fmt::Formatter<'_>) -> fmt::Result {
        match *self.shown {
            Property::Name(number) => match self.names.get(Named::Property(number)) {
                Some(name) => write!(f, "{name}"),
                None => write!(f, "{number}"),
            },
            Property::Number(bits) => {
                write!(f, "[")?;
                show_bits(bits, f)?;
                write!(f, "]")
            }
        }
    }
}

impl fmt::Display for WithNames<'_, Entry> {
    fn fmt(&self, f: &mut fmt::Formatter<'_>) -> fmt::Result {
        match (self.shown.property, self.shown.optional) {
            (_, true) => write!(f, "?.")?,
            (Property::Name(_), false) => write!(f, ".")?,
            (Property::Number(_), false) => {}
        }
        self.shown.property.with_names(self.names).fmt(f)?;
        show_span(self.shown.span, f)
    }
}

impl fmt::Display for WithNames<'_, Path> {
    fn fmt(&self, f: &mut fmt::Formatter<'_>) -> fmt::Result {
        let path = self.shown;
        if path.is_reactive() && !f.alternate() {
            write!(f, "reactive ")?;
        }
        path.identifier().with_names(self.names).fmt(f)?;
        show_span(path.span(), f)?;
        path.entries().iter().try_for_each(|entry| entry.with_names(self.names).fmt(f))
    }
}

/// The alternate form shows no spans.
fn show_span(span: Span, f: &mut fmt::Formatter<'_>) -> fmt::Result {
    if span.is_none() || f.alternate() {
        Ok(())
    } else {
        write!(f, "@{span}")
    }
}
