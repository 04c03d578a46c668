//! A text, and how far it has been read.

use super::error::{NotationError, Position};
use crate::names::is_name_character;
use std::borrow::Cow;

pub(super) struct Cursor<'t> {
    rest: &'t str,
    position: Position,
}

impl<'t> Cursor<'t> {
    pub(super) fn new(text: &'t str) -> Self {
        Self { rest: text, position: Position { line: 1, column: 1 } }
    }

    pub(super) fn position(&self) -> Position {
        self.position
    }

    pub(super) fn peek(&self) -> Option<char> {
        self.rest.chars().next()
    }

    fn step(&mut self, character: char) {
        self.rest = &self.rest[character.len_utf8()..];
        if character == '\n' {
            self.position.line += 1;
            self.position.column = 1;
        } else {
            self.position.column += 1;
        }
    }

    /// Passes over white space and comments.
    pub(super) fn skip_blank(&mut self) {
        let mut in_comment = false;
        while let Some(character) = self.peek() {
            in_comment = character == '#' || in_comment && character != '\n';
            if !in_comment && !character.is_whitespace() {
                break;
            }
            self.step(character);
        }
    }

    /// Reads `due` if it stands here.
    pub(super) fn take(&mut self, due: &str) -> bool {
        let stands = self.rest.starts_with(due);
        if stands {
            due.chars().for_each(|character| self.step(character));
        }
        stands
    }

    /// Reads characters as long as they are wanted.
    pub(super) fn take_while(&mut self, wanted: impl Fn(char) -> bool) -> &'t str {
        let start = self.rest;
        while let Some(character) = self.peek().filter(|&character| wanted(character)) {
            self.step(character);
        }
        &start[..start.len() - self.rest.len()]
    }

    /// Reads the keyword if it stands here as a whole word.
    pub(super) fn keyword(&mut self, due: &str) -> bool {
        let word = self.word();
        word == due && self.take(due)
    }

    /// The word or the number that stands here: letters, digits, `_` and `$`.
    pub(super) fn word(&self) -> &'t str {
        let end = self.rest.find(|c: char| !is_name_character(c)).unwrap_or(self.rest.len());
        &self.rest[..end]
    }

    /// Says that something else is due here.
    pub(super) fn due(&self, what: &str) -> NotationError {
        self.due_here(&format!("{what} is"))
    }

    /// The same of a word with what follows it.
    pub(super) fn both_due(&self, what: &str) -> NotationError {
        self.due_here(&format!("{what} are"))
    }

    fn due_here(&self, what: &str) -> NotationError {
        let found = match (self.word(), self.peek()) {
            ("", None) => "the end of the text".to_string(),
            ("", Some('\n' | '\r')) => "the end of the line".to_string(),
            ("", Some(' ' | '\t')) => "a blank".to_string(),
            ("", Some('\u{feff}')) => "a byte-order mark (U+FEFF); a text has none".to_string(),
            ("", Some(character)) if character.is_control() => format!("U+{:04X}", u32::from(character)),
            ("", Some(character)) => format!("`{character}`"),
            (word, _) => format!("`{}`", short(word)),
        };
        self.wrong(format!("{what} due here, not {found}"))
    }

    /// Says what is wrong here.
    pub(super) fn wrong(&self, message: impl Into<String>) -> NotationError {
        NotationError::new(self.position, message)
    }
}

/// How many characters of a word a message shows.
const SHOWN: usize = 40;

/// The word, or its start where it is long.
pub(super) fn short(word: &str) -> Cow<'_, str> {
    match word.char_indices().nth(SHOWN) {
        None => word.into(),
        Some((end, _)) => format!("{}..", &word[..end]).into(),
    }
}
