//! Paths as the picture shows them, and lines of them.

use crate::explain::{counts_as_mutable, why_kept};
use crate::names::Names;
use crate::path::Path;
use crate::raw_read::RawRead;
use std::ops::Range;

/// The most characters of a line of paths. Only a variable or an entry that is longer by itself
/// makes a longer line.
pub(super) const LONGEST: usize = 34;
/// What a line starts with that goes on with a path. Blanks at the start of a text are not shown,
/// but these are.
const GOES_ON: &str = "\u{a0}\u{a0}";

/// The parts of a path between which a line may be broken: the variable, and each entry. Every path
/// that is shown in a picture comes from here.
pub(super) fn parts(path: &Path, names: &Names) -> Vec<String> {
    let variable = path.identifier().with_names(names).to_string();
    let entries = path.entries().iter().map(|entry| format!("{:#}", entry.with_names(names)));
    std::iter::once(variable).chain(entries).collect()
}

/// What stands before a path whose node reduction added. It is no colour, and is there in the text
/// under the pointer, too.
const ADDED: &str = "+";

/// A path in a list, and its class.
pub(super) struct Item {
    parts: Vec<String>,
    class: &'static str,
    pub(super) is_added: bool,
    /// Why a raw read is kept, or why it is not; of other paths nothing.
    why: String,
}

impl Item {
    /// A path of this class.
    pub(super) fn new(path: &Path, names: &Names, class: &'static str) -> Self {
        Self { parts: parts(path, names), class, is_added: false, why: String::new() }
    }

    /// A path whose node reduction added, with its mark.
    pub(super) fn added(path: &Path, names: &Names) -> Self {
        let mut parts = parts(path, names);
        parts[0].insert_str(0, ADDED);
        Self { parts, class: "added", is_added: true, why: String::new() }
    }

    /// A raw read with its instruction. One that is not kept is struck through.
    pub(super) fn read(read: &RawRead, names: &Names) -> Self {
        let mut parts = parts(&read.path, names);
        parts.push(format!(" at {}", read.instruction));
        let (class, why) = if read.is_kept() {
            ("assumed", format!("kept: {}", why_kept(read)))
        } else {
            ("cut", format!("not kept: {}", counts_as_mutable(read, names)))
        };
        Self { parts, class, is_added: false, why }
    }

    /// The lines of the path by itself, with a comma behind it where others follow.
    pub(super) fn lines(&self, others_follow: bool) -> Vec<Vec<Piece>> {
        let mut parts = self.parts.clone();
        if let (true, Some(last)) = (others_follow, parts.last_mut()) {
            last.push(',');
        }
        broken(parts.into_iter().map(|part| (self.class, part)))
    }
}

/// All paths in one text, raw reads with the reason why they are kept or not.
pub(super) fn all(items: &[Item]) -> String {
    let is_read = items.iter().any(|item| !item.why.is_empty());
    let shown = items.iter().map(|item| match &item.why[..] {
        "" => item.parts.concat(),
        why => format!("{} ({why})", item.parts.concat()),
    });
    shown.collect::<Vec<_>>().join(if is_read { "; " } else { ", " })
}

/// The raw reads among these with their reasons; nothing where there are none.
pub(super) fn reasons(items: &[Item]) -> String {
    let is_read = items.iter().any(|item| !item.why.is_empty());
    if is_read {
        all(items)
    } else {
        String::new()
    }
}

/// A piece of a text, and its class.
pub(super) type Piece = (&'static str, String);

/// The pieces as the parts of a text.
pub(super) fn as_parts(pieces: &[Piece]) -> Vec<(&str, &str)> {
    pieces.iter().map(|(class, piece)| (*class, &piece[..])).collect()
}

/// How many characters the pieces have.
fn length(pieces: &[Piece]) -> usize {
    pieces.iter().map(|(_, piece)| piece.chars().count()).sum()
}

/// Puts a piece behind others, in one with the last of them where that is of the same class.
fn push(line: &mut Vec<Piece>, (class, piece): Piece) {
    match line.last_mut() {
        Some((last, text)) if *last == class => text.push_str(&piece),
        _ => line.push((class, piece)),
    }
}

/// The pieces in lines of at most [`LONGEST`] characters. No piece is broken.
pub(super) fn broken(pieces: impl IntoIterator<Item = Piece>) -> Vec<Vec<Piece>> {
    let mut lines: Vec<Vec<Piece>> = vec![Vec::new()];
    for piece in pieces {
        let so_far = lines.last().map_or(0, |line| length(line));
        if so_far > 0 && so_far + piece.1.chars().count() > LONGEST {
            lines.push(vec![("", GOES_ON.to_string())]);
        }
        let line = lines.last_mut().expect("there is a line from the start on");
        push(line, piece);
    }
    lines
}

/// Lines of paths with commas between them, and how many of the paths they show.
pub(super) struct Lines {
    pub(super) lines: Vec<Vec<Piece>>,
    /// The places of the paths that each line shows, or a part of them.
    pub(super) places: Vec<Range<usize>>,
    pub(super) shown: usize,
}

/// As many paths as have room in `most` lines, and at least one. A path is shown whole or not at
/// all.
pub(super) fn lines(items: &[Item], most: usize) -> Lines {
    let mut made = Lines { lines: Vec::new(), places: Vec::new(), shown: 0 };
    for (place, item) in items.iter().enumerate() {
        let own = item.lines(place + 1 < items.len());
        if made.join(&own) {
            made.places.last_mut().into_iter().for_each(|places| places.end = place + 1);
        } else {
            if place > 0 && made.lines.len() + own.len() > most {
                break;
            }
            made.places.extend(own.iter().map(|_| place..place + 1));
            made.lines.extend(own);
        }
        made.shown += 1;
    }
    made
}

impl Lines {
    /// Puts a path behind the last line, where there is room for all of the path, and says whether
    /// there is. After a path that was broken, the next starts a line.
    fn join(&mut self, own: &[Vec<Piece>]) -> bool {
        let ([line], Some(last)) = (own, self.lines.last_mut()) else { return false };
        let goes_on = last.first().is_some_and(|(_, text)| text.starts_with(GOES_ON));
        if goes_on || length(last) + 1 + length(line) > LONGEST {
            return false;
        }
        last.last_mut().into_iter().for_each(|(_, text)| text.push(' '));
        line.iter().for_each(|piece| push(last, piece.clone()));
        true
    }
}
