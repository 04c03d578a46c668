//! Raw reads: `reactive 5@7?.10 at 3 range 0 to 2 scope 0 to 9 immutable`.

use super::cursor::Cursor;
use super::error::NotationError;
use super::number::{whole, whole_u32};
use super::path::path;
use super::with_names::WithNames;
use crate::limits;
use crate::names::{Names, NONE};
use crate::raw_read::{RawRead, ReadScope};
use std::fmt;
use std::str::FromStr;

impl FromStr for RawRead {
    type Err = NotationError;

    fn from_str(text: &str) -> Result<Self, NotationError> {
        let mut cursor = Cursor::new(text);
        cursor.skip_blank();
        let (read, goes_on_with) = raw_read(&mut cursor, &NONE)?;
        match cursor.peek() {
            None => Ok(read),
            Some(_) if goes_on_with.is_empty() => Err(cursor.due("the end of the read")),
            Some(_) => Err(cursor.due(&format!("{} or the end of the read", goes_on_with.join(", ")))),
        }
    }
}

/// A raw read after its keyword, and the blanks behind it; and what may continue it here, for
/// messages.
pub(super) fn raw_read(
    cursor: &mut Cursor,
    names: &Names,
) -> Result<(RawRead, &'static [&'static str]), NotationError> {
    let path = path(cursor, names)?;
    cursor.skip_blank();
    word(cursor, "at", "`at` and the number of the instruction")?;
    let instruction = whole_u32(cursor, "the number of the instruction")?;
    cursor.skip_blank();
    word(cursor, "range", "`range` and the start of the variable's range")?;
    let range_start =
        whole(cursor, "the range's start, to which 1 is added,", limits::RANGE_START.into())? as u32;
    let range_end = end(cursor, "the range's end")?;
    let (scope, goes_on_with) = scope(cursor)?;
    let known_immutable = cursor.keyword("immutable");
    cursor.skip_blank();
    let goes_on_with = if known_immutable { &[] } else { goes_on_with };
    Ok((RawRead { instruction, range_start, range_end, scope, known_immutable, path }, goes_on_with))
}

/// The scope, if one stands here, or the numbers in the place of one; and what may come then.
fn scope(cursor: &mut Cursor) -> Result<(ReadScope, &'static [&'static str]), NotationError> {
    let is_none = cursor.keyword("no");
    if is_none {
        cursor.skip_blank();
        if !cursor.keyword("scope") {
            return Err(cursor.due("`scope`"));
        }
    } else if !cursor.keyword("scope") {
        return Ok((ReadScope::NONE, &["`scope`", "`no scope`", "`immutable`"]));
    }
    cursor.skip_blank();
    if is_none && !cursor.word().starts_with(|c: char| c.is_ascii_digit()) || cursor.word() == "none" {
        return Err(cursor.wrong("where the variable has no scope, nothing is written"));
    }
    let start = whole_u32(cursor, "the scope's start")?;
    let end = end(cursor, "the scope's end")?;
    Ok((ReadScope::of_fields((!is_none, start, end)), &["`immutable`"]))
}

/// A range's end after its start, and the blanks around it.
fn end(cursor: &mut Cursor, what: &str) -> Result<u32, NotationError> {
    cursor.skip_blank();
    word(cursor, "to", &format!("`to` and {what}"))?;
    let end = whole_u32(cursor, what)?;
    cursor.skip_blank();
    Ok(end)
}

/// The word that is due here, with what has to follow it, and the blanks behind it.
fn word(cursor: &mut Cursor, due: &str, what: &str) -> Result<(), NotationError> {
    if !cursor.keyword(due) {
        return Err(cursor.both_due(what));
    }
    cursor.skip_blank();
    Ok(())
}

impl fmt::Display for WithNames<'_, RawRead> {
    fn fmt(&self, f: &mut fmt::Formatter<'_>) -> fmt::Result {
        let RawRead { instruction, range_start, range_end, scope, known_immutable, path } = self.shown;
        path.with_names(self.names).fmt(f)?;
        write!(f, " at {instruction} range {range_start} to {range_end}")?;
        match *scope {
            ReadScope::NONE => {}
            ReadScope::Some { start, end } => write!(f, " scope {start} to {end}")?,
            ReadScope::None { start, end } => write!(f, " no scope {start} to {end}")?,
        }
        write!(f, "{}", if *known_immutable { " immutable" } else { "" })
    }
}
