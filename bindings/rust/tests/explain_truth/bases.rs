//! Sentences on the base of an entry.

use crate::parse::{assuming, block, blocks, holes, instruction, path};
use crate::sources::{check_holders, check_sources};
use crate::stops::{check_stopped, check_stopped_in_full};
use crate::text::{told_in, Section};
use crate::world::{leaves_open, show, shows, World};
use scope_deps::replay::Side;
use scope_deps::{BlockId, Path, RawRead, ReadScope};

/// `1 is known to be there in block 2, since 1.10 is; SOURCES` or with a section's number. The path
/// that shows it.
pub fn check_known(world: &World, base: &Path, said: &str, sections: &[Section]) -> Path {
    let scope = world.job.scope();
    let start = format!("{} is known to be there in block {scope}", show(base));
    let rest = said.strip_prefix(&start).unwrap_or_else(|| panic!("not of {}: {said}", show(base)));
    let (held, rest) = match holes(", since {} is{}", rest) {
        Some(found) => (path(found[0]), found[1]),
        None => (base.clone(), rest),
    };
    assert!(world.is_known(base), "{said}");
    assert!(world.holds(scope, &held) && shows(&held, base), "{said}");
    if let Some(found) = holes(" [{}]", rest) {
        let told = told_in(sections, found[0]);
        assert!(told.iter().any(|(block, path)| *block == scope && path.same_entries(&held)), "{said}");
    } else if let Some((form, read_at)) = own_said(rest, scope) {
        let form = if form == "it" { held.clone() } else { path(form) };
        assert_eq!(world.own(scope, &form), Some(read_at), "{said}");
        assert_eq!(*world.sources(scope, &held), [(scope, show(&form), read_at)].into(), "{said}");
    } else {
        let found = holes("; it comes from {}", rest).unwrap_or_else(|| panic!("no source: {said}"));
        check_sources(world, scope, &held, found[0]);
    }
    held
}

/// `; block 7 assumes it` or `; block 7 reads 1?.10 at instruction 3`.
fn own_said(rest: &str, scope: BlockId) -> Option<(&str, Option<u32>)> {
    let (form, read_at) = assuming(rest.strip_prefix(&format!("; block {scope} "))?, true)?;
    Some((form, read_at.map(instruction)))
}

/// `block 3 left out block 1, which does not have 5: control comes from there too, but the two are
/// on a loop`, of the base 5 and the path that shows it.
pub fn check_left_out(world: &World, base: &Path, held: &Path, said: &str) {
    let pattern =
        format!("{{}} left out {{}}, which does not have {}: {{}}, but the two are on a loop", show(base));
    let found = holes(&pattern, said).unwrap_or_else(|| panic!("no sentence: {said}"));
    let (by, out) = (block(found[0]), block(found[1]));
    let side = match found[2] {
        "control comes from there too" => Side::Predecessors,
        "control goes on there too" => Side::Successors,
        other => panic!("no side: {other}"),
    };
    assert!(!world.has(out, base) && world.on_a_loop(by, out), "{said}");
    assert!(world.neighbours(by, side).contains(&out), "{said}");
    let place = world.place(out);
    let forms = world.paths().iter().filter(|path| path.same_names(held));
    let mut visits = forms.flat_map(|form| world.visits_with(by, side, form));
    assert!(visits.any(|visit| visit.passed_over.contains(&place)), "{said}");
}

/// A sentence on why a base is not known; what kind of sentence it is.
pub fn check_unknown(world: &World, base: &Path, said: &str, sections: &[Section]) -> &'static str {
    let (scope, shown) = (world.job.scope(), show(base));
    if said == "the stage stopped after 100 rounds, before it had settled" {
        assert!(!world.sheet.is_settled() && world.sheet.rounds() == 100, "{said}");
        return "not settled";
    }
    let nobody = format!("no block assumes {shown}");
    if let Some(rest) = said.strip_prefix(&format!("{nobody}; ")) {
        check_unknown(world, base, &nobody, sections);
        return check_unknown(world, base, rest, sections);
    }
    if said == nobody {
        assert!(!world.all_assumed().any(|path| shows(path, base)), "{said}");
        assert!(world.having(base).is_empty(), "{said}");
        return "no block";
    }
    if let Some(found) = holes(&format!("{{}}, which does not make {shown} known to the stage"), said) {
        return check_assumed_open(world, base, found[0]);
    }
    if let Some(found) = holes(&format!("{{}}; that does not make {shown} known to the stage"), said) {
        return check_open(world, base, found[0], sections);
    }
    let (alone, more) = without_more(said);
    let (reason, would) = without_would(world, base, alone);
    if let Some(found) = holes(NOT_KEPT, reason) {
        let kind = check_not_kept(world, base, &found, would);
        let all = world.ids().map(|id| world.not_kept(id, base).len()).sum::<usize>();
        assert!(more == 0 || more + 1 == all || world.count_dropped(base) > TRIED, "{said}");
        return kind;
    }
    if let Some(found) = holes("{}, too, but {}", said) {
        return check_here(world, base, (found[0], found[1]), sections);
    }
    if let Some(found) = holes(&format!("{shown} is there in {{}} [{{}}]"), said) {
        assert_eq!(blocks(found[0]), world.having(base), "{said}");
        assert!(!world.has(scope, base), "{said}");
        let told = told_in(sections, found[1]);
        assert!(told.iter().all(|(_, path)| base.names_start(path)), "{said}");
        let is_told = |at: &BlockId| told.iter().any(|(block, path)| block == at && shows(path, base));
        assert!(blocks(found[0]).iter().all(is_told), "{said}");
        return "the blocks that have it";
    }
    if said.starts_with("it stops at ") {
        return check_stopped_in_full(world, base, said, sections);
    }
    check_stopped(world, base, said)
}

/// That a raw read does not count, and why.
pub const NOT_KEPT: &str =
    "{} reads a property of {} at {}, but {} counts as mutable there: its range {} to {} is longer than one \
                            instruction, and {} is in its scope, {} to {}";

/// So many reads of one base are tried.
pub const TRIED: usize = 64;

/// A sentence on a read without what it says of others, and how many these are.
pub fn without_more(said: &str) -> (&str, usize) {
    if let Some(alone) = said.strip_suffix(" (and 1 more such read is not kept)") {
        return (alone, 1);
    }
    match holes("{} (and {} more such reads are not kept)", said) {
        Some(found) => (found[0], found[1].parse().unwrap()),
        None => (said, 0),
    }
}

/// A sentence on a read without what it says would be if the read were kept, and that.
pub fn without_would<'s>(world: &World, base: &Path, said: &'s str) -> (&'s str, Option<bool>) {
    let (base, scope) = (show(base), world.job.scope());
    let would = format!("; if it were kept, {base} would be known in block {scope}");
    let not = format!("; even if it were kept, {base} would not be known in block {scope}");
    match (said.strip_suffix(&would), said.strip_suffix(&not)) {
        (Some(reason), _) => (reason, Some(true)),
        (_, Some(reason)) => (reason, Some(false)),
        _ => (said, None),
    }
}

/// That the block has such a read, which would show the base; that the reasons hold; and that the
/// base would be known by it, or not, as is said.
fn check_not_kept(world: &World, base: &Path, found: &[&str], would: Option<bool>) -> &'static str {
    let number = |hole: usize| found[hole].parse::<u32>().unwrap_or_else(|_| panic!("no number: {found:?}"));
    let (read_path, at) = (path(found[1]), instruction(found[2]));
    let (range, scope) = ((number(4), number(5)), (number(7), number(8)));
    let is_told = |read: &RawRead| {
        read.path.same_entries(&read_path)
            && read.instruction == at
            && (read.range_start, read.range_end) == range
            && read.scope == ReadScope::Some { start: scope.0, end: scope.1 }
    };
    let not_kept = world.not_kept(block(found[0]), base);
    let mut told = not_kept.iter().filter(|(read, _)| is_told(read) && !read.known_immutable);
    let untried = would.is_none() && world.count_dropped(base) > TRIED;
    assert!(told.any(|(_, known)| untried || *known == would), "{found:?} {would:?}");
    assert_eq!(found[3], show(&read_path.prefix(0)));
    assert_eq!(instruction(found[6]), at);
    assert!(u64::from(range.1) > u64::from(range.0) + 1 && scope.0 <= at && at < scope.1, "{found:?}");
    match would {
        Some(true) => "not kept, though it would do",
        Some(false) => "not kept, and would not do",
        None => "not kept",
    }
}

/// `block 4 assumes 1?.10` or `block 4 reads 1?.10 at instruction 3`, which leaves the base open.
fn check_assumed_open(world: &World, base: &Path, said: &str) -> &'static str {
    let found = holes("block {} {}", said).unwrap_or_else(|| panic!("no sentence: {said}"));
    let (open, read_at) = assuming(found[1], true).unwrap_or_else(|| panic!("no sentence: {said}"));
    let (id, open) = (block(&format!("block {}", found[0])), path(open));
    assert_eq!(world.own(id, &open), Some(read_at.map(instruction)), "{said}");
    assert!(leaves_open(&open, base), "{said}");
    if read_at.is_some() {
        "read, and left open"
    } else {
        "assumed, and left open"
    }
}

/// `block 7 has 1?.10 from block 1, which assumes it`, of the path that decides.
fn check_open(world: &World, base: &Path, said: &str, sections: &[Section]) -> &'static str {
    let open = check_own(world, said, sections);
    assert!(leaves_open(&open, base) && world.deciding_about(base).same_entries(&open), "{said}");
    "left open"
}

/// `block 7 assumes 1.11`, and why the path that leaves the base open decides.
fn check_here(world: &World, base: &Path, (said, why): (&str, &str), sections: &[Section]) -> &'static str {
    let also = check_own(world, said, sections);
    assert!(shows(&also, base), "{said}");
    let open = world.deciding_about(base);
    let starts_optional = |path: &Path| path.entries()[0].optional;
    match why {
        "a path that has `?.` right after its variable decides before others" => {
            assert!(starts_optional(open) && !also.entries().first().is_some_and(|entry| entry.optional));
            "shown, but open by the first entry"
        }
        "of two such paths the one that the stage met first decides" => {
            let optional = also.entries().first().is_some_and(|entry| entry.optional);
            assert!(starts_optional(open) == optional && world.met_before(open, &also), "{said}");
            "shown, but open by a path met before"
        }
        other => panic!("no reason: {other}"),
    }
}

/// That the scope block has a path, with its sources or the section that tells of it.
fn check_own(world: &World, said: &str, sections: &[Section]) -> Path {
    let scope = world.job.scope();
    let Some(found) = holes(&format!("block {scope} has {{}} [{{}}]"), said) else {
        let holders = check_holders(world, None, said);
        assert_eq!(holders.named, [scope], "{said}");
        assert!(world.holds(scope, &holders.path), "{said}");
        return holders.path;
    };
    let own = path(found[0]);
    let told = told_in(sections, found[1]);
    assert!(told.iter().any(|(block, path)| *block == scope && path.same_entries(&own)), "{said}");
    assert!(world.holds(scope, &own), "{said}");
    own
}
