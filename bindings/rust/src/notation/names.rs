//! Names as text: `name 1 athlete` and `name .10 lastSession`.

use super::cursor::Cursor;
use super::error::NotationError;
use super::job::read_job;
use super::number::{whole, whole_u32};
use super::path::whole_path;
use crate::ids::IdentifierId;
use crate::job::Job;
use crate::names::{NameError, Named, Names};
use crate::path::Path;
use std::str::FromStr;

impl Names {
    /// The path in a text, which may use these names.
    ///
    /// # Errors
    ///
    /// The first place at which the text is no path.
    pub fn read_path(&self, text: &str) -> Result<Path, NotationError> {
        whole_path(text, self)
    }

    /// The job in a text, which may use these names. The job has them, and those that the text
    /// gives.
    ///
    /// # Errors
    ///
    /// The first place at which the text is no job, or the part of it that keeps it from being one.
    pub fn read_job(&self, text: &str) -> Result<Job, NotationError> {
        read_job(text, self.clone())
    }
}

impl FromStr for Names {
    type Err = NotationError;

    fn from_str(text: &str) -> Result<Self, NotationError> {
        let mut cursor = Cursor::new(text);
        let mut names = Self::new();
        cursor.skip_blank();
        names_here(&mut cursor, &mut names)?;
        match cursor.peek() {
            None => Ok(names),
            Some(_) => Err(cursor.due("`name` or the end of the names")),
        }
    }
}

/// The names that stand here, and the blanks behind them; how many they are.
pub(super) fn names_here(cursor: &mut Cursor, names: &mut Names) -> Result<usize, NotationError> {
    let mut count = 0;
    while cursor.keyword("name") {
        name(cursor, names)?;
        cursor.skip_blank();
        count += 1;
    }
    Ok(count)
}

/// A name after its keyword.
fn name(cursor: &mut Cursor, names: &mut Names) -> Result<(), NotationError> {
    cursor.skip_blank();
    let number_at = cursor.position();
    let named = if cursor.take(".") {
        Named::Property(whole(cursor, "a property's number", u64::MAX)?)
    } else {
        let what = "what is named, a variable's number or `.` and a property's,";
        Named::Variable(IdentifierId(whole_u32(cursor, what)?))
    };
    cursor.skip_blank();
    let name_at = cursor.position();
    let name = cursor.word();
    if name.is_empty() {
        return Err(cursor.due("a name"));
    }
    cursor.take(name);
    names.insert(named, name).map_err(|why| {
        let position = if matches!(why, NameError::NamedAlready { .. }) { number_at } else { name_at };
        NotationError::new(position, why.to_string())
    })
}
