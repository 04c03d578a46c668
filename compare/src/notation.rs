//! Jobs written shortly, for examples: `1?.10` is identifier 1 with optional name 10, and
//! `1[0x8000000000000000]` is identifier 1 with the number of these bits, −0. A span stands after
//! `@`, as in `reactive 1@5.10@6`, which is reactive; none is 0.

use crate::job::{Block, Entry, Job, Path, Property, RawRead};
use crate::reads::mutable;

/// The path that is written so. Panics where the text is none.
pub fn path(text: &str) -> Path {
    let bare = text.trim_start_matches("reactive ");
    let (root, rest) = digits(bare);
    let (span, mut rest) = span(rest);
    let mut entries = Vec::new();
    while !rest.is_empty() {
        let (entry, after) = entry(rest);
        entries.push(entry);
        rest = after;
    }
    Path { identifier: root.parse().expect("an identifier"), reactive: bare != text, span, entries }
}

/// The digits at the text's start, and the text after them.
fn digits(text: &str) -> (&str, &str) {
    text.split_at(text.find(|c: char| !c.is_ascii_digit()).unwrap_or(text.len()))
}

/// The span at the text's start, and the text after it.
fn span(text: &str) -> (u32, &str) {
    let Some(after) = text.strip_prefix('@') else { return (0, text) };
    let (number, rest) = digits(after);
    (number.parse().expect("a span"), rest)
}

/// The entry at the text's start, and the text after it.
fn entry(text: &str) -> (Entry, &str) {
    let optional = text.starts_with('?');
    let key = text.trim_start_matches('?').trim_start_matches('.');
    let (property, rest) = match key.strip_prefix("[0x") {
        Some(bracket) => {
            let (bits, rest) = bracket.split_once(']').expect("a closing bracket");
            (Property::Number(u64::from_str_radix(bits, 16).expect("64 bits")), rest)
        }
        None => {
            let (name, rest) = digits(key);
            (Property::Name(name.parse().expect("a name's number")), rest)
        }
    };
    let (span, rest) = span(rest);
    (Entry { optional, property, span }, rest)
}

/// Paths with commas between them.
pub fn paths(text: &str) -> Vec<Path> {
    text.split(", ").filter(|text| !text.is_empty()).map(path).collect()
}

pub fn block(id: u32, predecessors: &[u32], assumed: &str) -> Block {
    Block { id, predecessors: predecessors.to_vec(), reads: vec![], assumed: paths(assumed) }
}

/// A read at `instruction` of a path whose range and scope are these, not known immutable. Without
/// a scope, the scope's range holds every instruction.
pub fn read(path_text: &str, instruction: u32, range: (u32, u32), scope: Option<(u32, u32)>) -> RawRead {
    let (scope_start, scope_end) = scope.unwrap_or((0, u32::MAX));
    RawRead {
        instruction,
        range_start: range.0,
        range_end: range.1,
        has_scope: scope.is_some(),
        scope_start,
        scope_end,
        known_immutable: false,
        path: path(path_text),
    }
}

/// The same read, known immutable.
pub fn immutable(read: RawRead) -> RawRead {
    RawRead { known_immutable: true, ..read }
}

/// A read that is kept, since its range is short.
pub fn kept(text: &str) -> RawRead {
    RawRead { range_end: 1, ..dropped(text) }
}

/// A read that is not kept.
pub fn dropped(text: &str) -> RawRead {
    mutable(path(text))
}

pub fn job(scope: u32, blocks: Vec<Block>, candidates: &str) -> Job {
    Job { scope, blocks, candidates: paths(candidates) }
}

/// A path as it is written above, without its spans and without `reactive`.
pub fn text(path: &Path) -> String {
    let entry = |entry: &Entry| match (entry.optional, entry.property) {
        (true, Property::Name(name)) => format!("?.{name}"),
        (false, Property::Name(name)) => format!(".{name}"),
        (true, Property::Number(bits)) => format!("?.[{bits:#x}]"),
        (false, Property::Number(bits)) => format!("[{bits:#x}]"),
    };
    path.identifier.to_string() + &path.entries.iter().map(entry).collect::<String>()
}

#[cfg(test)]
mod tests {
    use super::*;

    #[test]
    fn a_path_is_written_as_it_was_read() {
        for written in ["1", "1?.10.11", "7[0x8000000000000000]?.[0x0].5", "0.0?.18446744073709551615"] {
            assert_eq!(text(&path(written)), written);
        }
        assert!(path("1?.10").entries[0].optional && !path("1.10").entries[0].optional);
        assert_eq!(path("1[0x5]").entries[0].property, Property::Number(5));
        assert_eq!(path("1.5").entries[0].property, Property::Name(5));
        let (plain, spanned) = (path("1?.10[0x0]"), path("reactive 1@5?.10@6[0x0]@7"));
        assert_eq!(text(&spanned), text(&plain));
        let spans: Vec<u32> = spanned.entries.iter().map(|entry| entry.span).collect();
        assert_eq!((spanned.reactive, spanned.span, &spans[..]), (true, 5, &[6, 7][..]));
        assert_eq!((plain.reactive, plain.span, plain.entries[0].span), (false, 0, 0));
    }
}
