//! The item cutter, on source made for it.

use compare::cutter::{cut, insert_in_block_after, replace_once};

const SOURCE: &str = r####"//! Inner doc { not an item
use a::{b, c};

// plain comment about `fn first` {
/// Doc of first. }
#[inline]
pub(crate) fn first<'a>(x: &'a str) -> char {
    let _s = "} \" {"; // } in a comment
    let _r = r#"}"{"#;
    /* } /* nested } */ } */
    match x { _ => '}' }
}

fn first_other() { let _ = '\''; let _ = b'}'; let _ = 'é'; }

#[derive(Debug)]
struct Pair(u64, u64);

pub struct Named<'a> {
    field: &'a str, // index into {
}

pub enum Kind { One, Two { x: u8 } }

impl<'a> Named<'a> {
    fn first(&self) -> &'a str { self.field }
}

impl std::fmt::Display for Named<'_> {
    fn fmt(&self) {}
}

impl<T: Into<u8>> From<T> for Kind where T: Copy { fn from(_: T) -> Self { Kind::One } }

const TABLE: [Kind; 1] = [Kind::Two { x: 1 }];
macro_rules! m { () => { fn hidden() {} }; }
m!();
"####;

#[test]
fn a_function_comes_with_its_doc_and_attributes() {
    let text = cut(SOURCE, "fn first").unwrap();
    assert!(text.starts_with("/// Doc of first. }\n#[inline]\npub(crate) fn first<'a>"), "{text}");
    assert!(text.ends_with("match x { _ => '}' }\n}"), "{text}");
}

#[test]
fn a_name_must_be_whole() {
    let text = cut(SOURCE, "fn first_other").unwrap();
    assert!(text.starts_with("fn first_other() {") && text.ends_with("'é'; }"), "{text}");
    assert!(cut(SOURCE, "fn firs").is_err());
}

#[test]
fn structs_and_enums_end_at_their_brace_or_semicolon() {
    assert_eq!(cut(SOURCE, "struct Pair").unwrap(), "#[derive(Debug)]\nstruct Pair(u64, u64);");
    assert!(cut(SOURCE, "struct Named").unwrap().ends_with("index into {\n}"));
    assert_eq!(cut(SOURCE, "enum Kind").unwrap(), "pub enum Kind { One, Two { x: u8 } }");
}

#[test]
fn impls_are_told_apart_by_trait_and_type() {
    assert!(cut(SOURCE, "impl Named").unwrap().contains("fn first(&self)"));
    assert!(cut(SOURCE, "impl Display for Named").unwrap().contains("fn fmt"));
    assert!(cut(SOURCE, "impl From for Kind").unwrap().contains("fn from"));
}

#[test]
fn what_is_missing_or_doubled_is_named() {
    assert_eq!(cut(SOURCE, "fn absent"), Err("`fn absent` was not found".into()));
    assert_eq!(cut(SOURCE, "fn hidden"), Err("`fn hidden` was not found".into()));
    let doubled = "fn a() {}\nfn a() {}";
    assert_eq!(cut(doubled, "fn a"), Err("`fn a` stands more than once".into()));
    assert!(cut("fn a() {", "fn a").is_err());
}

#[test]
fn an_edit_needs_exactly_one_place() {
    assert_eq!(replace_once("x.old(1)", "old", "new").unwrap(), "x.new(1)");
    assert!(replace_once("old old", "old", "new").unwrap_err().contains("2 times"));
    assert!(replace_once("", "old", "new").unwrap_err().contains("0 times"));
    assert_eq!(insert_in_block_after("a { b { c } }", "b", " d;").unwrap(), "a { b { d; c } }");
    assert!(insert_in_block_after("a { b }", "b", " d;").is_err());
}
