//! Why a base is not known, in words.

use super::known::sources;
use super::show::{
    assumes, counts_as_mutable, for_count, show_block, show_blocks, show_path, show_some_blocks,
};
use super::{Sections, Text};
use crate::explain::{
    AssumedPath, Before, Elsewhere, Explanation, Holder, How, NotKept, Stop, Unknown, Way, Why,
};
use crate::ids::BlockId;
use crate::path::Path;
use crate::replay::Side;

pub(super) fn unknown(text: &Text, why: &Unknown) -> Vec<String> {
    let (base, scope) = (text.path(&why.base), show_block(text.explanation.scope));
    let mut lines = vec![format!("{base} is not known to be there in {scope}")];
    lines.extend(why.open.as_ref().map(|open| own(text, open) + "; that " + &leaves_open(text, &why.base)));
    lines.extend(elsewhere(text, why));
    lines.extend(not_kept(text, why));
    if !text.explanation.settled {
        lines.push("the stage stopped after 100 rounds, before it had settled".to_string());
    }
    lines
}

fn leaves_open(text: &Text, base: &Path) -> String {
    format!("does not make {} known to the stage", text.path(base))
}

/// The raw reads of the base that are not kept: one of them and how many more there are, or all
/// where all is shown.
fn not_kept(text: &Text, why: &Unknown) -> Vec<String> {
    if text.sections.is_some() {
        return why.not_kept.iter().map(|read| read_not_kept(text, &why.base, read)).collect();
    }
    let more = match why.not_kept.len() {
        0 | 1 => String::new(),
        2 => " (and 1 more such read is not kept)".to_string(),
        count => format!(" (and {} more such reads are not kept)", count - 1),
    };
    why.first_not_kept().map(|read| read_not_kept(text, &why.base, read) + &more).into_iter().collect()
}

/// That a block reads a property of the base, why that read is not kept, and whether it matters.
fn read_not_kept(text: &Text, base: &Path, not_kept: &NotKept) -> String {
    let (read, names) = (&not_kept.read, &text.explanation.names);
    let reads = assumes(&text.path(&read.path), Some(read.instruction));
    let (block, why) = (show_block(not_kept.block), counts_as_mutable(read, names));
    let would = would_do(not_kept, base, text.explanation);
    let joint = if would.is_empty() { "" } else { "; " };
    format!("{block} {reads}, but {why}{joint}{would}")
}

/// Whether the base would be known if the read were kept; nothing where that was not tried.
pub(crate) fn would_do(read: &NotKept, base: &Path, explanation: &Explanation) -> String {
    let (base, scope) = (show_path(base, &explanation.names), show_block(explanation.scope));
    match read.would_do {
        Some(true) => format!("if it were kept, {base} would be known in {scope}"),
        Some(false) => format!("even if it were kept, {base} would not be known in {scope}"),
        None => String::new(),
    }
}

/// That the scope block has a path: from where, or where it is told.
fn own(text: &Text, holder: &Holder) -> String {
    match &text.sections {
        Some(sections) => {
            let (block, path) = (show_block(holder.block), text.path(&holder.path));
            format!("{block} has {path} {}", sections.refer(&[holder.step]))
        }
        None => has(text, &holder.path, holder, &[holder.block]),
    }
}

/// That the scope block has a path that shows the base, and why the other decides.
fn here(text: &Text, holder: &Holder, before: Before) -> String {
    let first = match before {
        Before::Optional => "a path that has `?.` right after its variable decides before others",
        Before::Met => "of two such paths the one that the stage met first decides",
    };
    format!("{}, too, but {first}", own(text, holder))
}

fn elsewhere(text: &Text, why: &Unknown) -> Vec<String> {
    let base = &why.base;
    match (&why.elsewhere, &text.sections) {
        (Elsewhere::Here { holder, before }, _) => vec![here(text, holder, *before)],
        (Elsewhere::Nowhere(open), _) => nowhere(text, why, open),
        (Elsewhere::Apart { holders, holder }, sections) => {
            let there = sections.as_ref().map(|sections| there(text, base, holders, sections));
            there.into_iter().chain([apart(text, base, holder, holders)]).collect()
        }
        (Elsewhere::Stopped { holders, stops }, None) => {
            stops.first().map(|stop| stopped(text, base, stop, holders)).into_iter().collect()
        }
        (Elsewhere::Stopped { holders, stops }, Some(sections)) => {
            let first = there(text, base, holders, sections);
            let each = stops.iter().map(|stop| stopped_in_full(text, stop, sections));
            std::iter::once(first).chain(each).collect()
        }
    }
}

/// That no block assumes the base, and which assume a path that leaves it open: the first of them,
/// or all where all is shown.
fn nowhere(text: &Text, why: &Unknown, open: &[AssumedPath]) -> Vec<String> {
    let nobody = format!("no block assumes {}", text.path(&why.base));
    let assumes = |AssumedPath { block, path, read_at }: &AssumedPath| {
        let (block, assumes) = (show_block(*block), assumes(&text.path(path), *read_at));
        format!("{block} {assumes}, which {}", leaves_open(text, &why.base))
    };
    match (&text.sections, &why.open, open) {
        (Some(_), ..) => std::iter::once(nobody).chain(open.iter().map(assumes)).collect(),
        (None, None, [first, ..]) => vec![format!("{nobody}; {}", assumes(first))],
        _ => vec![nobody],
    }
}

fn there(text: &Text, base: &Path, holders: &[Holder], sections: &Sections) -> String {
    let blocks: Vec<BlockId> = holders.iter().map(|holder| holder.block).collect();
    let steps: Vec<usize> = holders.iter().map(|holder| holder.step).collect();
    format!("{} is there in {} {}", text.path(base), show_blocks(&blocks), sections.refer(&steps))
}

/// That no arrows connect the blocks that have the base with the scope block.
fn apart(text: &Text, base: &Path, holder: &Holder, holders: &[Holder]) -> String {
    let scope = show_block(text.explanation.scope);
    let blocks = alike(text, holder, holders);
    let apart = match blocks[..] {
        [block] => format!("{} and {scope} are not connected", show_block(block)),
        _ => format!("none of them is connected with {scope}"),
    };
    format!("{}, but {apart}", has(text, base, holder, &blocks))
}

/// That these blocks have the base, and from where, as one of them has it.
fn has(text: &Text, base: &Path, one: &Holder, blocks: &[BlockId]) -> String {
    let have = for_count(blocks.len(), "has", "have");
    let verb = match text.explanation.steps[one.step].how {
        How::Assumed { read: None } => for_count(blocks.len(), "assumes", "assume"),
        How::Assumed { read: Some(_) } => {
            for_count(blocks.len(), "reads a property of", "read a property of")
        }
        _ => have,
    };
    let so = if one.path.same_names(base) {
        String::new()
    } else {
        format!(", and so {have} {}", text.path(base))
    };
    format!("{} {verb} {}{so}", show_some_blocks(blocks), whence(text, one))
}

/// The path by which a block has the base, and from where if not by itself.
fn whence(text: &Text, holder: &Holder) -> String {
    let path = text.path(&holder.path);
    match &text.explanation.steps[holder.step].how {
        How::Assumed { read: None } => path,
        How::Assumed { read: Some(read) } => format!("{path} at instruction {}", read.instruction),
        _ => format!("{path} from {}", sources(text, holder.step)),
    }
}

/// The blocks of which the same is to be said as of one of them.
fn alike<'a>(text: &Text, one: &Holder, holders: impl IntoIterator<Item = &'a Holder>) -> Vec<BlockId> {
    let said = whence(text, one);
    let same = holders.into_iter().filter(|holder| whence(text, holder) == said);
    same.map(|holder| holder.block).collect()
}

/// That the blocks beside a stop have the base, and from where those that have it like one of them.
fn beside(text: &Text, base: &Path, stop: &Stop, holders: &[Holder]) -> String {
    let beside = holders.iter().filter(|holder| stop.holders.contains(&holder.block));
    let alike = alike(text, &stop.holder, beside);
    let others: Vec<BlockId> = stop.holders.iter().copied().filter(|block| !alike.contains(block)).collect();
    let too = match others.len() {
        0 => String::new(),
        count => format!(", and {} {} it too", show_some_blocks(&others), for_count(count, "has", "have")),
    };
    has(text, base, &stop.holder, &alike) + &too
}

/// Where the base stopped and why, in short.
fn stopped(text: &Text, base: &Path, stop: &Stop, holders: &[Holder]) -> String {
    let (scope, at) = (show_block(text.explanation.scope), show_block(stop.at));
    let has = beside(text, base, stop, holders);
    if stop.at == text.explanation.scope {
        return format!(
            "{has}, but {}",
            reason(text, stop, At { to: &format!("to {at}"), from: &format!("from {at}"), it: &at })
        );
    }
    let on_the_way = if stop.way == Way::Aside { String::new() } else { format!("on the way to {scope} ") };
    let there = At { to: "there", from: "from there", it: &at };
    format!("{has}, but {on_the_way}it stops at {at}: {}", reason(text, stop, there))
}

/// The block at which a base stopped, in a sentence that may have named it.
struct At<'a> {
    to: &'a str,
    from: &'a str,
    it: &'a str,
}

fn reason(text: &Text, stop: &Stop, at: At) -> String {
    match (&stop.why, stop.side) {
        (Why::Lacking(blocks), Side::Predecessors) => {
            format!("control can also come {} from {}, which does not have it", at.to, show_block(blocks[0]))
        }
        (Why::Lacking(blocks), Side::Successors) => {
            format!("control can also go on {} to {}, which does not have it", at.from, show_block(blocks[0]))
        }
        _ => other_reason(text, stop, at),
    }
}

/// The reasons that are the same in short and in full.
fn other_reason(text: &Text, stop: &Stop, at: At) -> String {
    let (control, comes) = match stop.side {
        Side::Predecessors => ("control comes from", format!("control comes {} from", at.to)),
        Side::Successors => ("control goes on to", format!("control goes on {} to", at.from)),
    };
    let joint = if stop.side == Side::Predecessors { "from" } else { "to" };
    match &stop.why {
        Why::Different { one, other } => {
            let has = |holder: &Holder| {
                format!("{}, which has it by {}", show_block(holder.block), text.path(&holder.path))
            };
            let (one, other) = (has(one), has(other));
            format!("{comes} {one}, and {joint} {other}; only a path that is the same in all is passed on")
        }
        Why::Unfinished => format!(
            "all the blocks that {control} are on a loop with {} and not finished when it takes over",
            at.it
        ),
        Why::SomeUnfinished(blocks) => {
            let beside = if stop.side == Side::Predecessors { "before" } else { "after" };
            let since = unfinished(text, stop.at, blocks);
            format!("{} takes nothing over from the blocks {beside} it, since {since}", at.it)
        }
        _ => format!("{} last took over before all the blocks that {control} had it", at.it),
    }
}

/// That these neighbours of a block, itself among them perhaps, were not finished: some of them, or
/// all where all is shown.
fn unfinished(text: &Text, at: BlockId, blocks: &[BlockId]) -> String {
    if blocks == [at] {
        return "it is itself one of them and not finished".to_string();
    }
    let shown = if text.sections.is_some() { show_blocks(blocks) } else { show_some_blocks(blocks) };
    format!("{shown} {} on a loop with it and not finished", for_count(blocks.len(), "is", "are"))
}

/// Where the base stopped and why, with all blocks that are beside.
fn stopped_in_full(text: &Text, stop: &Stop, sections: &Sections) -> String {
    let at = show_block(stop.at);
    let (control, joint) = match stop.side {
        Side::Predecessors => ("control comes there from", "from"),
        Side::Successors => ("control goes on from there to", "to"),
    };
    let holders = show_blocks(&stop.holders);
    let have = for_count(stop.holders.len(), "has", "have");
    let reason = match &stop.why {
        Why::Lacking(lacking) => {
            let not = for_count(lacking.len(), "does not", "do not");
            format!(
                "{control} {holders}, which {have} it, but also {joint} {}, which {not}",
                show_blocks(lacking)
            )
        }
        _ => other_reason(text, stop, At { to: "there", from: "from there", it: &at }),
    };
    let refer = match &stop.why {
        Why::Different { one, other } => format!(" {}", sections.refer(&[one.step, other.step])),
        _ => String::new(),
    };
    format!("it stops at {at}: {reason}{refer}")
}
