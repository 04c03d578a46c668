//! By what a base is known, in words.

use super::show::{assume, show_block, show_some_blocks, MOST};
use super::Text;
use crate::explain::origins::origins;
use crate::explain::{How, Known, LeftOut, Origin};
use crate::path::Path;
use crate::replay::Side;

/// The most origins of a path that are told apart in short.
const ORIGINS: usize = 2;

pub(super) fn known(text: &Text, base: &Path, by: &Known) -> Vec<String> {
    let scope = show_block(text.explanation.scope);
    let since = if by.path.same_entries(base) {
        String::new()
    } else {
        format!(", since {} is", text.path(&by.path))
    };
    let known = format!("{} is known to be there in {scope}{since}", text.path(base));
    let first = match &text.sections {
        Some(sections) => format!("{known} {}", sections.refer(&[by.step])),
        None => format!("{known}; {}", origin(text, by.step)),
    };
    let left_out = by.left_out.map(|left_out| self::left_out(text, base, left_out));
    std::iter::once(first).chain(left_out).collect()
}

/// From where the scope block has its path.
fn origin(text: &Text, step: usize) -> String {
    let at = &text.explanation.steps[step];
    match &origins(&text.explanation.steps, step)[..] {
        [own] if own.blocks == [at.block] => {
            let path = it(text, &own.path, &at.path);
            format!("{} {}", show_block(at.block), assume(1, &path, &own.read_at, MOST))
        }
        _ => format!("it comes from {}", sources(text, step)),
    }
}

/// The blocks that assume the path of a step, or a form of which it was made, on its way to the
/// block of the step.
pub(super) fn sources(text: &Text, step: usize) -> String {
    let path = &text.explanation.steps[step].path;
    let origins = origins(&text.explanation.steps, step);
    let mut said: Vec<String> =
        origins.iter().take(ORIGINS).map(|origin| source(text, origin, path)).collect();
    if origins.len() > ORIGINS {
        said.push("others".to_string());
    }
    said.join(", and from ")
}

fn source(text: &Text, Origin { path: form, blocks, read_at }: &Origin, path: &Path) -> String {
    let assume = assume(blocks.len(), &it(text, form, path), read_at, MOST);
    format!("{}, which {assume}", show_some_blocks(blocks))
}

/// The form, where it is not that of the path spoken of.
fn it(text: &Text, form: &Path, path: &Path) -> String {
    if form.same_entries(path) {
        "it".to_string()
    } else {
        text.path(form)
    }
}

/// That a block which does not have the base was left out on the way of the path that shows it.
fn left_out(text: &Text, base: &Path, LeftOut { step, block }: LeftOut) -> String {
    let step = &text.explanation.steps[step];
    let (by, block, base) = (show_block(step.block), show_block(block), text.path(base));
    let control = match step.how {
        How::TookOver { side: Side::Successors, .. } => "control goes on there too",
        _ => "control comes from there too",
    };
    format!("{by} left out {block}, which does not have {base}: {control}, but the two are on a loop")
}
