//! Paths: `reactive 1@5?.10@6[0]`, or with names `reactive athlete@5?.lastSession@6[0]`.

use super::cursor::{short, Cursor};
use super::error::NotationError;
use super::number::{bits, whole, whole_u32};
use crate::ids::{IdentifierId, Span};
use crate::limits;
use crate::names::{Names, NONE, REACTIVE};
use crate::path::{Entry, Path, Property};
use std::str::FromStr;

impl FromStr for Path {
    type Err = NotationError;

    fn from_str(text: &str) -> Result<Self, NotationError> {
        whole_path(text, &NONE)
    }
}

/// The path that the whole text is.
pub(super) fn whole_path(text: &str, names: &Names) -> Result<Path, NotationError> {
    let mut cursor = Cursor::new(text);
    cursor.skip_blank();
    let path = path(&mut cursor, names)?;
    cursor.skip_blank();
    match cursor.peek() {
        None => Ok(path),
        Some(_) => Err(cursor.due("the end of the path")),
    }
}

/// A path that starts here.
pub(super) fn path(cursor: &mut Cursor, names: &Names) -> Result<Path, NotationError> {
    let reactive = cursor.keyword(REACTIVE);
    if reactive {
        cursor.skip_blank();
    }
    let identifier = match name_here(cursor, |name| names.variable(name), "a path's variable")? {
        Some(identifier) => identifier,
        None => IdentifierId(whole_u32(cursor, "a path's variable")?),
    };
    let mut path = Path::new(identifier).with_reactive(reactive).with_span(span(cursor)?);
    loop {
        let here = cursor.position();
        let Some(entry) = entry(cursor, names)? else { return Ok(path) };
        if path.entries().len() == limits::ENTRIES {
            return Err(NotationError::new(here, format!("a path has at most {} entries", limits::ENTRIES)));
        }
        path = path.then(entry);
    }
}

/// What the name that stands here is given to. `None` where no name stands here.
fn name_here<T>(
    cursor: &mut Cursor,
    given: impl Fn(&str) -> Option<T>,
    what: &str,
) -> Result<Option<T>, NotationError> {
    let name = cursor.word();
    if !name.starts_with(|first: char| !first.is_ascii_digit()) {
        return Ok(None);
    }
    match given(name) {
        Some(named) => {
            cursor.take(name);
            Ok(Some(named))
        }
        None => Err(cursor.wrong(format!(
            "{what} is due here: a number, or a name given before, which `{}` is not",
            short(name)
        ))),
    }
}

/// The entry that starts here, if one does.
fn entry(cursor: &mut Cursor, names: &Names) -> Result<Option<Entry>, NotationError> {
    let optional = cursor.take("?.");
    let in_brackets = cursor.peek() == Some('[');
    if !optional && !in_brackets && !cursor.take(".") {
        return match cursor.peek() {
            Some('?') => Err(cursor.wrong("after `?` there is a `.`, as in `1?.10` or `1?.[0]`")),
            _ => Ok(None),
        };
    }
    let property = match (in_brackets, cursor.peek()) {
        (true, _) => number_in_brackets(cursor)?,
        (false, Some('[')) => return Err(cursor.wrong("a number read plainly has no dot before it: `1[0]`")),
        (false, _) => name_after_dot(cursor, names)?,
    };
    Ok(Some(Entry { property, optional, span: span(cursor)? }))
}

fn name_after_dot(cursor: &mut Cursor, names: &Names) -> Result<Property, NotationError> {
    let number = match name_here(cursor, |name| names.property(name), "a property's name")? {
        Some(number) => number,
        None => whole(cursor, "a property's name", u64::MAX)?,
    };
    Ok(Property::Name(number))
}

fn number_in_brackets(cursor: &mut Cursor) -> Result<Property, NotationError> {
    cursor.take("[");
    let bits = bits(cursor)?;
    if cursor.take("]") {
        Ok(Property::Number(bits))
    } else {
        Err(cursor.due("`]`"))
    }
}

/// The span after `@`, or none.
fn span(cursor: &mut Cursor) -> Result<Span, NotationError> {
    if cursor.take("@") {
        Ok(Span(whole_u32(cursor, "a span")?))
    } else {
        Ok(Span::NONE)
    }
}
