//! What is wrong with a text, and where.

use std::fmt;

/// A place in a text.
#[derive(Clone, Copy, Debug, PartialEq, Eq, Hash)]
pub(crate) struct Position {
    pub(crate) line: usize,
    pub(crate) column: usize,
}

/// Why a text is no job or no path, with the line and the column, both counted from 1 and columns
/// in characters.
#[derive(Clone, Debug, PartialEq, Eq, Hash)]
pub struct NotationError {
    position: Position,
    message: String,
}

impl NotationError {
    pub(crate) fn new(position: Position, message: impl Into<String>) -> Self {
        Self { position, message: message.into() }
    }

    /// The line, from 1.
    #[must_use]
    pub fn line(&self) -> usize {
        self.position.line
    }

    /// The column, from 1, in characters.
    #[must_use]
    pub fn column(&self) -> usize {
        self.position.column
    }

    /// What is wrong, without the place.
    #[must_use]
    pub fn message(&self) -> &str {
        &self.message
    }

    /// The line of `text` that the error is in, and a mark under the column. Of a long line there
    /// is what stands around the column.
    ///
    /// ```
    /// let text = "scope 7\nblock 7 after x";
    /// let wrong = text.parse::<scope_deps::Job>().unwrap_err();
    /// assert_eq!(wrong.excerpt(text), "2 | block 7 after x\n  |               ^");
    /// ```
    #[must_use]
    pub fn excerpt(&self, text: &str) -> String {
        let number = self.line().to_string();
        let line = text.lines().nth(self.line() - 1).unwrap_or_default();
        let (start, shown) = window(line, self.column() - 1);
        let before = shown.chars().chain(std::iter::repeat(' ')).take(self.column() - 1 - start);
        let blank: String = before.map(|c| if c == '\t' { '\t' } else { ' ' }).collect();
        format!("{number} | {shown}\n{} | {blank}^", " ".repeat(number.len()))
    }
}

/// How many characters an excerpt shows before the column.
const BEFORE: usize = 60;
/// How many characters an excerpt shows from the column on.
const FROM: usize = 40;
/// What stands for what is left out.
const LEFT_OUT: &str = "..";

/// The part of a line around a column, and the column at which it starts, both counted from 0.
fn window(line: &str, column: usize) -> (usize, String) {
    let start = column.saturating_sub(BEFORE);
    let mut shown: String = line.chars().skip(start).take(BEFORE.min(column) + FROM).map(visible).collect();
    if line.chars().nth(start + BEFORE.min(column) + FROM).is_some() {
        shown.push_str(LEFT_OUT);
    }
    if start == 0 {
        return (start, shown);
    }
    (start - LEFT_OUT.len(), format!("{LEFT_OUT}{shown}"))
}

/// The character, or a stand-in for one that is not seen or would do something to a terminal.
fn visible(character: char) -> char {
    let is_unseen = character.is_control() && character != '\t' || character == '\u{feff}';
    if is_unseen {
        char::REPLACEMENT_CHARACTER
    } else {
        character
    }
}

impl fmt::Display for NotationError {
    fn fmt(&self, f: &mut fmt::Formatter<'_>) -> fmt::Result {
        write!(f, "line {}, column {}: {}", self.line(), self.column(), self.message)
    }
}

impl std::error::Error for NotationError {}
