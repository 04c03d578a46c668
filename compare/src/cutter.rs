//! Cuts items out of Rust source by name.
//!
//! An item is named as it would be looked for: `fn name`, `struct Name`,
//! `enum Name`, `impl Name` or `impl Trait for Name`. Paths and generics
//! around a name in an `impl` are left out of the name.
//!
//! The build script includes this file too, so it uses nothing of the crate.

use std::ops::Range;

/// The text of the one item called `name`, with its attributes and doc comments.
pub fn cut<'s>(source: &'s str, name: &str) -> Result<&'s str, String> {
    let mut found = None;
    for range in items(source)? {
        let text = &source[range];
        if item_name(text).as_deref() == Some(name) {
            if found.is_some() {
                return Err(format!("`{name}` stands more than once"));
            }
            found = Some(text);
        }
    }
    found.ok_or_else(|| format!("`{name}` was not found"))
}

/// Replaces the one place where `old` stands.
pub fn replace_once(text: &str, old: &str, new: &str) -> Result<String, String> {
    only_place(text, old)?;
    Ok(text.replacen(old, new, 1))
}

/// Puts `added` after the first opening brace that follows the one place of `token`.
pub fn insert_in_block_after(text: &str, token: &str, added: &str) -> Result<String, String> {
    let place = only_place(text, token)?;
    let Some(brace) = text[place..].find('{') else {
        return Err(format!("no block follows `{token}`"));
    };
    let (before, after) = text.split_at(place + brace + 1);
    Ok(format!("{before}{added}{after}"))
}

fn only_place(text: &str, pattern: &str) -> Result<usize, String> {
    let places: Vec<usize> = text.match_indices(pattern).map(|(place, _)| place).collect();
    match places[..] {
        [place] => Ok(place),
        _ => Err(format!("`{pattern}` stands {} times where it should stand once", places.len())),
    }
}

/// The places of all items at the top level of `source`.
fn items(source: &str) -> Result<Vec<Range<usize>>, String> {
    let bytes = source.as_bytes();
    let mut found = Vec::new();
    let mut at = skip_between_items(bytes, 0);
    while at < bytes.len() {
        let end = item_end(bytes, at)?;
        found.push(at..end);
        at = skip_between_items(bytes, end);
    }
    Ok(found)
}

/// Passes white space, plain comments and inner doc comments.
fn skip_between_items(bytes: &[u8], mut at: usize) -> usize {
    loop {
        let rest = &bytes[at..];
        let doc = rest.starts_with(b"///") || rest.starts_with(b"/**");
        if rest.first().is_some_and(u8::is_ascii_whitespace) {
            at += 1;
        } else if !doc && (rest.starts_with(b"//") || rest.starts_with(b"/*")) {
            at = skip_token(bytes, at);
        } else {
            return at;
        }
    }
}

/// The place after the item that starts at `start`.
fn item_end(bytes: &[u8], start: usize) -> Result<usize, String> {
    let to_semicolon = ends_at_semicolon(bytes, start);
    let mut depth = 0usize;
    let mut at = start;
    while at < bytes.len() {
        match bytes[at] {
            b'{' | b'(' | b'[' => depth += 1,
            closing @ (b'}' | b')' | b']') => {
                depth = depth.checked_sub(1).ok_or("a bracket closes that was not opened")?;
                if depth == 0 && closing == b'}' && !to_semicolon {
                    return Ok(at + 1);
                }
            }
            b';' if depth == 0 => return Ok(at + 1),
            _ => {}
        }
        at = skip_token(bytes, at);
    }
    Err(format!("the item at byte {start} does not end"))
}

/// Whether a closing brace may stand inside the item, as in a `use` list.
fn ends_at_semicolon(bytes: &[u8], start: usize) -> bool {
    let text = String::from_utf8_lossy(&bytes[start..]);
    let header = header_words(&text);
    matches!(header.first().map(String::as_str), Some("use" | "const" | "static" | "type"))
        && header.get(1).map(String::as_str) != Some("fn")
}

/// The place after the comment, literal or single byte at `at`.
fn skip_token(bytes: &[u8], at: usize) -> usize {
    let rest = &bytes[at..];
    if rest.starts_with(b"//") {
        at + rest.iter().position(|&b| b == b'\n').unwrap_or(rest.len())
    } else if rest.starts_with(b"/*") {
        skip_block_comment(bytes, at)
    } else if rest[0] == b'"' {
        skip_string(bytes, at)
    } else if let Some(hashes) = raw_string_hashes(bytes, at) {
        skip_raw_string(bytes, at, hashes)
    } else if rest[0] == b'\'' {
        skip_char_or_lifetime(bytes, at)
    } else {
        at + 1
    }
}

fn skip_block_comment(bytes: &[u8], mut at: usize) -> usize {
    let mut depth = 0;
    while at < bytes.len() {
        if bytes[at..].starts_with(b"/*") {
            depth += 1;
            at += 2;
        } else if bytes[at..].starts_with(b"*/") {
            depth -= 1;
            at += 2;
            if depth == 0 {
                return at;
            }
        } else {
            at += 1;
        }
    }
    at
}

fn skip_string(bytes: &[u8], at: usize) -> usize {
    let mut at = at + 1;
    while at < bytes.len() && bytes[at] != b'"' {
        at += if bytes[at] == b'\\' { 2 } else { 1 };
    }
    (at + 1).min(bytes.len())
}

/// The number of `#` marks if a raw string starts here.
fn raw_string_hashes(bytes: &[u8], at: usize) -> Option<usize> {
    let inside_word = at > 0 && is_word(bytes[at - 1]) && bytes[at - 1] != b'b';
    if bytes[at] != b'r' || inside_word {
        return None;
    }
    let hashes = bytes[at + 1..].iter().take_while(|&&b| b == b'#').count();
    (bytes.get(at + 1 + hashes) == Some(&b'"')).then_some(hashes)
}

fn skip_raw_string(bytes: &[u8], at: usize, hashes: usize) -> usize {
    let end = [b"\"".as_slice(), &b"#".repeat(hashes)].concat();
    let body = at + hashes + 2;
    let length = bytes[body..].windows(end.len()).position(|window| window == end);
    length.map_or(bytes.len(), |length| body + length + end.len())
}

/// A quote starts a character if one closes it, else a lifetime.
fn skip_char_or_lifetime(bytes: &[u8], at: usize) -> usize {
    let text = &bytes[at + 1..];
    if text.first() == Some(&b'\\') {
        let close = text[2.min(text.len())..].iter().position(|&b| b == b'\'');
        return close.map_or(bytes.len(), |close| at + 4 + close);
    }
    let length = text.first().map_or(1, |&first| utf8_length(first));
    if text.get(length) == Some(&b'\'') { at + length + 2 } else { at + 1 }
}

fn utf8_length(first: u8) -> usize {
    match first {
        0..=0xBF => 1,
        0xC0..=0xDF => 2,
        0xE0..=0xEF => 3,
        _ => 4,
    }
}

fn is_word(byte: u8) -> bool {
    byte.is_ascii_alphanumeric() || byte == b'_'
}

/// The name by which an item is asked for, if it is of a kind that can be cut.
fn item_name(item: &str) -> Option<String> {
    let words = header_words(item);
    match words.first()?.as_str() {
        kind @ ("fn" | "struct" | "enum") => Some(format!("{kind} {}", words.get(1)?)),
        "impl" => impl_name(&words[1..]),
        _ => None,
    }
}

/// Words and single signs of an item up to its body, without attributes,
/// comments and visibility. A body starts at a brace, a round bracket or a semicolon.
fn header_words(item: &str) -> Vec<String> {
    let bytes = item.as_bytes();
    let mut words = Vec::new();
    let mut at = 0;
    while at < bytes.len() {
        let start = at;
        if is_word(bytes[at]) && raw_string_hashes(bytes, at).is_none() {
            while at < bytes.len() && is_word(bytes[at]) {
                at += 1;
            }
            if &item[start..at] == "pub" {
                at = skip_visibility_limit(bytes, at);
            } else {
                words.push(item[start..at].to_string());
            }
        } else if bytes[at] == b'#' && words.is_empty() {
            at = skip_bracketed(bytes, at + 1);
        } else if matches!(bytes[at], b'{' | b'(' | b';') {
            break;
        } else {
            at = skip_token(bytes, at);
            if bytes[start].is_ascii_punctuation() && at == start + 1 {
                words.push(item[start..at].to_string());
            }
        }
    }
    words
}

/// Passes the bracket after `pub`, as in `pub(crate)`.
fn skip_visibility_limit(bytes: &[u8], at: usize) -> usize {
    if bytes.get(at) == Some(&b'(') { skip_bracketed(bytes, at) } else { at }
}

fn skip_bracketed(bytes: &[u8], mut at: usize) -> usize {
    let mut depth = 0usize;
    while at < bytes.len() {
        match bytes[at] {
            b'[' | b'(' => depth += 1,
            b']' | b')' => depth -= 1,
            _ => {}
        }
        at = skip_token(bytes, at);
        if depth == 0 {
            break;
        }
    }
    at
}

/// `Name` or `Trait for Name` of an `impl`, from the words after it.
fn impl_name(words: &[String]) -> Option<String> {
    let mut names: Vec<&str> = vec![""];
    let mut depth = 0;
    for (place, word) in words.iter().enumerate() {
        let after_quote = place > 0 && words[place - 1] == "'";
        match word.as_str() {
            "<" => depth += 1,
            ">" => depth -= 1,
            "where" if depth == 0 => break,
            "for" if depth == 0 => names.push(""),
            // The last word of a path is the name.
            word if depth == 0 && !after_quote && is_word(word.as_bytes()[0]) => {
                *names.last_mut()? = word;
            }
            _ => {}
        }
    }
    match names[..] {
        [name] => Some(format!("impl {name}")),
        [of, name] => Some(format!("impl {of} for {name}")),
        _ => None,
    }
}
