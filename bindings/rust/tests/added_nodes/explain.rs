//! Explanations: how many nodes there are, which ones reduction added, and where.

use crate::{job, BACKWARD, ON_THE_WAY, SMALLEST, THERE_ALREADY, TOLD_APART, TWO_ROUNDS};
use scope_deps::explain::{explain, explain_strict, Added, Explanation, Mismatch, Origin};
use scope_deps::replay::Side;
use scope_deps::{answer, raw, sheet, strict_answer, strict_sheet, BlockId, Job, Sheet};

fn explained(job: &Job) -> Explanation {
    explain(job, &sheet(job).unwrap(), &answer(job).unwrap()).unwrap()
}

fn strictly_explained(job: &Job) -> Explanation {
    explain_strict(job, &strict_sheet(job).unwrap(), &strict_answer(job).unwrap()).unwrap()
}

/// What stands at the end of an explanation, after a blank line.
fn end(said: String) -> String {
    said.rsplit_once("\n\n").unwrap().1.to_string()
}

fn short(text: &str) -> String {
    end(explained(&job(text)).to_string())
}

fn full(text: &str) -> String {
    end(explained(&job(text)).in_full().to_string())
}

#[test]
fn where_none_was_added_one_line_says_so() {
    let none = "nodes 3: 3 before the first round, 0 added by reduction\n";
    assert_eq!((short(THERE_ALREADY), full(THERE_ALREADY)), (none.to_string(), none.to_string()));
    let no_node = "nodes 0: 0 before the first round, 0 added by reduction\n";
    assert_eq!(short("scope 7 block 7 candidate 1.10"), no_node);
    assert_eq!(short("scope 7 block 7"), no_node, "without a candidate");
}

#[test]
fn those_that_were_added_are_named_in_short() {
    assert_eq!(short(SMALLEST), "nodes 3: 2 before the first round, 1 added by reduction: 1.10\n");
    assert_eq!(
        short(ON_THE_WAY),
        "nodes 5: 3 before the first round, 2 added by reduction: 1.10 and 1.10?.11\n"
    );
    let named = "name 1 athlete name .10 lastSession scope 7 block 7 assumes athlete, athlete?.lastSession";
    assert_eq!(
        short(named),
        "nodes 3: 2 before the first round, 1 added by reduction: athlete.lastSession\n"
    );
}

/// So many variables, each with an optional property.
fn many(count: usize) -> String {
    let assumed: String = (1..=count).map(|id| format!(" assumes {id}, {id}?.10")).collect();
    format!("scope 7 block 7{assumed}")
}

#[test]
fn of_many_some_are_named_and_in_full_all() {
    assert_eq!(
        short(&many(4)),
        "nodes 12: 8 before the first round, 4 added by reduction: 1.10, 2.10, 3.10 and 4.10\n"
    );
    assert_eq!(
        short(&many(120)),
        "nodes 360: 240 before the first round, 120 added by reduction: 1.10, 2.10, 3.10 and 117 more\n"
    );
    let full = full(&many(120));
    let lines: Vec<&str> = full.lines().collect();
    assert_eq!(
        (lines.len(), lines[0]),
        (121, "nodes 360: 240 before the first round, 120 added by reduction")
    );
    let last =
        "    120.10 in round 1, forward walk: block 7 made 120?.10, which it assumes, into 120.10, since it had 120";
    assert_eq!(lines[120], last);
}

#[test]
fn in_full_each_has_its_round_its_walk_and_its_block() {
    assert_eq!(
        full(TWO_ROUNDS),
        "\
nodes 6: 4 before the first round, 2 added by reduction
    1.10?.11 in round 1, forward walk: block 3 made 1?.10?.11, which it assumes, into 1.10?.11, since it had 1
    1.10.11 in round 2, forward walk: block 3 made 1.10?.11 into 1.10.11, since it had 1.10; \
     1.10?.11 comes from block 3, which assumes 1?.10?.11
"
    );
    assert_eq!(
        full(BACKWARD),
        "\
nodes 3: 2 before the first round, 1 added by reduction
    1.10 in round 1, backward walk: block 0 made 1?.10, which it assumes, into 1.10, since it had 1
"
    );
    assert_eq!(
        full(ON_THE_WAY),
        "\
nodes 5: 3 before the first round, 2 added by reduction
    1.10 and 1.10?.11 in round 1, forward walk: block 7 made 1?.10?.11, which it assumes, into 1.10?.11, since it had 1
"
    );
    let both = full("scope 7 block 7 assumes 1, 1.10, 1?.10?.11");
    assert!(
        both.ends_with(" made 1?.10?.11, which it assumes, into 1.10.11, since it had 1 and 1.10\n"),
        "{both}"
    );
}

#[test]
fn the_strict_propagation_has_its_own() {
    let job = job(TOLD_APART);
    let (existing, strict) = (explained(&job), strictly_explained(&job));
    assert_eq!(
        end(existing.to_string()),
        "nodes 5: 3 before the first round, 2 added by reduction: 1.10 and 1.10.10\n"
    );
    assert_eq!(
        end(strict.to_string()),
        "nodes 6: 3 before the first round, 3 added by reduction: 1?.10.10, 1.10 and 1.10.10\n"
    );
    assert_eq!(
        end(strict.in_full().to_string()),
        "\
nodes 6: 3 before the first round, 3 added by reduction
    1?.10.10 in round 1, forward walk: block 1 made 1?.10?.10, which it assumes, into 1?.10.10, since it had 1?.10
    1.10 in round 1, backward walk: block 0 made 1?.10 into 1.10, since it had 1; 1?.10 comes from block 1, which assumes it
    1.10.10 in round 1, backward walk: block 0 made 1?.10.10 into 1.10.10, since it had 1; \
     1?.10.10 comes from block 1, which assumes 1?.10?.10
"
    );
}

/// Where reduction led to a node that was there, no line tells of it, and the path goes back past
/// it.
#[test]
fn in_full_each_has_the_assumed_paths_that_it_comes_from() {
    let past = "scope 1 block 0 assumes 1, 1?.10?.11 block 1 after 0 assumes 1.10 \
                block 2 after 1 assumes 1.10?.11?.12";
    let comes = "block 1 made 1.10?.11 into 1.10.11, since it had 1.10; \
                 1.10?.11 comes from block 0, which assumes 1?.10?.11\n";
    assert!(full(past).contains(comes), "{}", full(past));
    let joined = "scope 4 block 0 block 1 after 0 assumes 1?.10 block 2 after 0 assumes 1?.10 \
                  block 3 after 0 assumes 1?.10 block 4 after 1, 2, 3 assumes 1";
    let comes = "since it had 1; 1?.10 comes from blocks 1, 2 and 3, which assume it\n";
    assert!(full(joined).contains(comes), "{}", full(joined));
    let forms = "scope 3 block 0 block 1 after 0 assumes 1, 1?.10?.11 block 2 after 0 assumes 1, 1.10?.11 \
                 block 3 after 1, 2 assumes 1.10";
    let comes = "1.10?.11 comes from block 1, which assumes 1?.10?.11, and block 2, which assumes it\n";
    assert!(full(forms).contains(comes), "{}", full(forms));
}

#[test]
fn in_full_each_has_the_raw_reads_that_it_comes_from() {
    let own = "scope 7 block 7 reads 1?.10 at 3 range 0 to 1 assumes 1";
    let line =
        "1.10 in round 1, forward walk: block 7 made 1?.10, of which it reads a property at instruction 3, \
                into 1.10, since it had 1\n";
    assert!(full(own).ends_with(line), "{}", full(own));
    let read = |at: u32| format!("reads 1?.10 at {at} range 0 to 1");
    let joined = format!(
        "scope 4 block 0 block 1 after 0 {} block 2 after 0 {} block 3 after 0 assumes 1?.10 block 4 after 1, 2, 3 assumes 1",
        read(8),
        read(6)
    );
    let comes =
        "1?.10 comes from blocks 1 and 2, which read a property of it at instructions 8 and 6, and block 3, \
                 which assumes it\n";
    assert!(full(&joined).ends_with(comes), "{}", full(&joined));
    let explanation = explained(&job(&joined));
    let [Added { origins, .. }] = &explanation.added[..] else { panic!("{explanation:?}") };
    let places: Vec<_> = origins.iter().map(|origin| (origin.blocks.len(), &origin.read_at[..])).collect();
    assert_eq!(places, [(2, &[8, 6][..]), (1, &[])]);
}

/// The first of two reads of the same path that is kept counts, with its own spans.
#[test]
fn an_origin_has_the_spans_of_the_first_read_that_is_kept() {
    let explanation = explained(&job(
        "scope 7 block 7 reads 1@4?.10@4 at 1 range 0 to 2 scope 0 to 9 reads reactive 1@5?.10@6 at 2 range 0 to 1 \
         reads 1?.10@7 at 3 range 0 to 1 assumes 1@8?.10@8, 1",
    ));
    let [Added { origins, .. }] = &explanation.added[..] else { panic!("{explanation:?}") };
    let [Origin { path, read_at, .. }] = &origins[..] else { panic!("{origins:?}") };
    assert_eq!((path.to_string(), &read_at[..]), ("reactive 1@5?.10@6".to_string(), &[2][..]));
}

#[test]
fn an_explanation_has_the_places_for_programs_too() {
    let explanation = explained(&job(TWO_ROUNDS));
    assert_eq!(explanation.nodes_before_rounds, 4);
    let places: Vec<_> =
        explanation.added.iter().map(|added| (added.round, added.side, added.block)).collect();
    assert_eq!(places, [1, 2].map(|round| (round, Side::Predecessors, BlockId(3))));
    let paths: Vec<String> = explanation.added_paths().map(|path| path.to_string()).collect();
    assert_eq!(paths, ["1.10?.11", "1.10.11"]);
    for Added { origins, .. } in &explanation.added {
        let [Origin { path, blocks, read_at }] = &origins[..] else { panic!("{origins:?}") };
        assert_eq!((path.to_string(), &blocks[..]), ("1?.10?.11".to_string(), &[BlockId(3)][..]));
        assert!(read_at.is_empty());
    }
}

/// The node of `1?.10` has the span of block 0, which made it.
#[test]
fn an_origin_has_the_spans_of_the_block_that_assumes_it() {
    let explanation = explained(&job(
        "scope 2 block 0 assumes 1?.10@3 block 1 assumes 1, reactive 1@7?.10@8, 1?.10@9 block 2 after 1",
    ));
    let [Added { origins, from, .. }] = &explanation.added[..] else { panic!("{explanation:?}") };
    let [Origin { path, blocks, .. }] = &origins[..] else { panic!("{origins:?}") };
    assert_eq!((from.to_string(), &blocks[..]), ("1?.10@3".to_string(), &[BlockId(1)][..]));
    assert_eq!(path.to_string(), "reactive 1@7?.10@8");
}

#[test]
fn nothing_is_explained_where_the_library_s_count_is_another() {
    let job = job(SMALLEST);
    let mut bytes = raw::sheet(job.as_bytes()).unwrap();
    bytes[8] = 3;
    let sheet = Sheet::from_bytes(&bytes).unwrap();
    assert_eq!(explain(&job, &sheet, &answer(&job).unwrap()), Err(Mismatch));
}
