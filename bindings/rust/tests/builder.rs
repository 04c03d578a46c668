//! The builder makes no malformed job.

use scope_deps::{
    limits, Block, BlockId, BuildError, Entry, Field, IdentifierId, Job, JobBuilder, Path, Property, RawRead,
    ReadScope, Record, Wrong,
};
use std::collections::HashSet;

fn path(entries: usize) -> Path {
    Path::new(IdentifierId(1)).with_entries((0..entries).map(|_| Entry::plain(Property::Name(1))))
}

fn paths(count: usize, entries: usize) -> impl Iterator<Item = Path> {
    (0..count).map(move |_| path(entries))
}

/// Blocks 0 to `count` - 1, the first the scope block.
fn blocks(count: u32) -> JobBuilder {
    Job::builder(BlockId(0)).blocks((0..count).map(|id| Block::new(BlockId(id))))
}

fn refused(job: JobBuilder) -> BuildError {
    job.build().unwrap_err()
}

/// What the error names: the record, the block's id, the field and what is wrong with it.
fn named(error: BuildError) -> (Record, Option<u32>, Field, Wrong) {
    (error.record(), error.block().map(|id| id.0), error.field(), error.wrong())
}

fn too_many(count: usize, most: usize) -> Wrong {
    Wrong::TooMany { count, most }
}

#[test]
fn each_limit_is_met_and_not_passed() {
    assert_eq!(named(refused(blocks(0))), (Record::Header, None, Field::Blocks, Wrong::Missing));
    assert!(blocks(128).build().is_ok());
    assert_eq!(named(refused(blocks(129))), (Record::Header, None, Field::Blocks, too_many(129, 128)));

    let candidates = |count| blocks(1).candidates(paths(count, 0));
    assert!(candidates(64).build().is_ok());
    assert_eq!(named(refused(candidates(65))), (Record::Header, None, Field::Candidates, too_many(65, 64)));

    let after = |count: u32| blocks(100).block(Block::new(BlockId(900)).after((0..count).map(BlockId)));
    assert!(after(64).build().is_ok());
    let refusal = named(refused(after(65)));
    assert_eq!(refusal, (Record::Block(100), Some(900), Field::Predecessors, too_many(65, 64)));

    let assumed = |count| blocks(1).block(Block::new(BlockId(9)).assuming(paths(count, 0)));
    assert!(assumed(255).build().is_ok());
    let refusal = named(refused(assumed(256)));
    assert_eq!(refusal, (Record::Block(1), Some(9), Field::Assumed, too_many(256, 255)));

    let reading = |count| blocks(1).block(Block::new(BlockId(9)).reading((0..count).map(|_| read(0, 0))));
    assert!(reading(255).build().is_ok());
    let refusal = named(refused(reading(256)));
    assert_eq!(refusal, (Record::Block(1), Some(9), Field::RawReads, too_many(256, 255)));
}

/// A read of a path with so many entries, whose range starts here.
fn read(entries: usize, start: u32) -> RawRead {
    RawRead::new(path(entries), 3, start..9, Some(0..9))
}

#[test]
fn a_range_starts_below_the_largest_number() {
    let starting = |start| blocks(1).block(Block::new(BlockId(9)).reading([read(0, 0), read(17, start)]));
    let largest = u32::MAX;
    assert_eq!(limits::RANGE_START, largest - 1);
    let at = Record::RawRead { block: 1, read: 1 };
    let refusal = refused(starting(largest));
    assert_eq!(named(refusal), (at, Some(9), Field::RangeStart, Wrong::LargestStart));
    assert_eq!(
        refusal.to_string(),
        "the range of raw read 2 of block 9 starts at 4294967295, and at most 4294967294 is allowed"
    );
    let refusal = refused(starting(largest - 1));
    assert_eq!(named(refusal), (at, Some(9), Field::Entries, too_many(17, 16)));
    assert_eq!(refusal.to_string(), "raw read 2 of block 9 has 17 entries, and at most 16 are allowed");
    // All other numbers may be the largest.
    let mut all = RawRead::new(path(16), largest, largest - 1..largest, Some(largest..largest));
    all.scope = ReadScope::None { start: largest, end: largest };
    let job = blocks(1).block(Block::new(BlockId(9)).reading([all.clone()])).build().unwrap();
    assert_eq!(Job::from_bytes(job.as_bytes()).unwrap().blocks()[1].raw_reads(), [all]);
}

/// A read at an instruction, with a range and a scope.
fn reads(instruction: u32, range: [u32; 2], scope: [u32; 2]) -> RawRead {
    RawRead::new(path(0), instruction, range[0]..range[1], Some(scope[0]..scope[1]))
}

#[test]
fn a_read_is_left_out_only_where_its_variable_can_change_and_is_not_known_not_to() {
    let changing = reads(3, [0, 2], [0, 9]);
    assert!(!changing.is_kept());
    // Each condition by itself, at its edges.
    assert!(reads(3, [0, 1], [0, 9]).is_kept() && reads(3, [0, 0], [0, 9]).is_kept());
    assert!(reads(3, [5, 2], [0, 9]).is_kept() && !reads(3, [5, 7], [0, 9]).is_kept());
    let kept = |instruction| reads(instruction, [0, 2], [3, 9]).is_kept();
    assert_eq!([2, 3, 8, 9].map(kept), [true, false, false, true]);
    assert!(reads(3, [0, 2], [3, 3]).is_kept() && reads(3, [0, 2], [9, 0]).is_kept());
    assert!(RawRead::new(path(0), 3, 0..2, None).is_kept());
    let no_scope = RawRead { scope: ReadScope::None { start: 0, end: 9 }, ..changing.clone() };
    assert!(no_scope.is_kept() && no_scope.scope.range().is_none());
    assert!(changing.clone().with_known_immutable(true).is_kept());
    assert!(!changing.with_known_immutable(false).is_kept());
    // The largest start that is allowed, and the largest end.
    let last = limits::RANGE_START;
    assert!(
        reads(3, [last, u32::MAX], [0, 9]).is_kept() && !reads(3, [last - 1, u32::MAX], [0, 9]).is_kept()
    );
}

#[test]
fn a_block_assumes_its_kept_reads_before_its_other_paths() {
    let parse = |text: &str| text.parse::<RawRead>().unwrap();
    let reads =
        ["4 at 3 range 0 to 2 scope 0 to 9", "5 at 3 range 0 to 1", "6 at 9 range 0 to 2 scope 0 to 9"];
    let block = Block::new(BlockId(0)).assuming(["1".parse().unwrap()]).reading(reads.map(parse));
    let assumed: Vec<String> = block.all_assumed().map(|path| path.to_string()).collect();
    assert_eq!(assumed, ["5", "6", "1"]);
    assert_eq!((block.raw_reads().len(), block.assumed().len()), (3, 1));
    let job = Job::builder(BlockId(0)).block(block).build().unwrap();
    assert_eq!(job.nodes_before_rounds(), 3);
}

#[test]
fn a_path_with_too_many_entries_is_named() {
    let of_block = |entries| Block::new(BlockId(9)).assuming([path(0), path(entries)]);
    assert!(blocks(1).block(of_block(16)).candidate(path(16)).build().is_ok());
    let refusal = refused(blocks(1).block(of_block(17)).candidate(path(17)));
    let assumed = Record::Assumed { block: 1, path: 1 };
    assert_eq!(named(refusal), (assumed, Some(9), Field::Entries, too_many(17, 16)));
    assert_eq!(refusal.to_string(), "assumed path 2 of block 9 has 17 entries, and at most 16 are allowed");
    let refusal = refused(blocks(1).candidates([path(3), path(300)]));
    assert_eq!(named(refusal), (Record::Candidate(1), None, Field::Entries, too_many(300, 16)));
    assert_eq!(refusal.to_string(), "candidate 2 has 300 entries, and at most 16 are allowed");
}

#[test]
fn the_job_is_not_too_long() {
    // A header of 10 bytes, two blocks of 9, and 138 paths of 236.
    let full = |last| {
        let block = Block::new(BlockId(1)).assuming(paths(138, 16)).assuming([path(last)]);
        blocks(1).block(block).candidate(path(0))
    };
    let start = 10 + 9 + 9 + 138 * 236;
    assert_eq!(full(10).build().unwrap().to_bytes().len(), start + 12 + 10 * 14 + 12);
    assert_eq!(refused(full(11)).record(), Record::Candidate(0));
    let bytes = start + 12 + 12 * 14 + 12;
    assert_eq!(bytes, limits::JOB_BYTES + 20);
    let refusal = refused(full(12));
    let passes = Record::Assumed { block: 1, path: 138 };
    assert_eq!(named(refusal), (passes, Some(1), Field::Bytes, too_many(bytes, limits::JOB_BYTES)));
    assert_eq!(
        refusal.to_string(),
        "the job takes 32788 bytes, and at most 32768 are allowed; assumed path 139 of block 1 passes them"
    );
}

#[test]
fn a_job_of_exactly_the_most_bytes_is_built() {
    let rest = limits::JOB_BYTES - 10 - 2 * 9;
    // Paths of 12 + 14 e bytes: 138 of 236 leave 172, and 172 = 2 * 12 + 14 * 10 + 8, of which 8
    // are two predecessors.
    assert_eq!(rest - 138 * 236 - 2 * 12 - 14 * 10, 2 * 4);
    let block = Block::new(BlockId(1)).after([0, 1].map(BlockId)).assuming(paths(138, 16));
    let of_paths = blocks(1).block(block.assuming([path(10)])).candidate(path(0));
    // The same with a raw read of 34 + 14 e bytes: 172 = 34 + 14 * 9 + 12.
    assert_eq!(rest - 138 * 236 - 34 - 14 * 9, 3 * 4);
    let block = Block::new(BlockId(1)).after([0, 1].map(BlockId)).reading([read(9, 0)]);
    let of_read = Job::builder(BlockId(0)).block(Block::new(BlockId(0)).after([BlockId(1)]));
    let of_read = of_read.block(block.assuming(paths(138, 16)));
    for job in [of_paths, of_read.clone()] {
        let job = job.build().unwrap();
        assert_eq!(job.as_bytes().len(), limits::JOB_BYTES);
        assert_eq!(Job::from_bytes(job.as_bytes()), Ok(job));
    }
    let longer = Block::new(BlockId(2)).reading([read(0, 0)]);
    assert_eq!(refused(of_read.block(longer.clone())).record(), Record::Block(2));
    let block = Block::new(BlockId(1)).assuming(paths(138, 16)).assuming([path(9)]);
    let refusal = refused(blocks(1).block(block).block(longer));
    let passes = Record::RawRead { block: 2, read: 0 };
    assert_eq!(named(refusal), (passes, Some(2), Field::Bytes, too_many(32_777, limits::JOB_BYTES)));
    assert!(refusal.to_string().ends_with("; raw read 1 of block 2 passes them"), "{refusal}");
}

#[test]
fn ids_stand_once_and_name_blocks() {
    let twice = refused(blocks(2).block(Block::new(BlockId(1))));
    assert_eq!(named(twice), (Record::Block(2), Some(1), Field::Id, Wrong::Repeated(BlockId(1))));
    let after = |ids: [u32; 2]| blocks(2).block(Block::new(BlockId(2)).after(ids.map(BlockId)));
    let second = |wrong| (Record::Block(2), Some(2), Field::Predecessor(1), wrong);
    assert!(after([0, 1]).build().is_ok());
    assert_eq!(named(refused(after([0, 0]))), second(Wrong::Repeated(BlockId(0))));
    assert_eq!(named(refused(after([0, 9]))), second(Wrong::Unknown(BlockId(9))));
    let scope = refused(Job::builder(BlockId(5)).block(Block::new(BlockId(0))));
    assert_eq!(named(scope), (Record::Header, None, Field::Scope, Wrong::Unknown(BlockId(5))));
}

#[test]
fn an_error_says_which_block_and_what_is_allowed() {
    let after = |ids: [u32; 2]| blocks(2).block(Block::new(BlockId(7)).after(ids.map(BlockId)));
    let said = |job| refused(job).to_string();
    assert_eq!(said(after([0, 0])), "block 7 names predecessor 0 twice");
    assert_eq!(said(after([0, 9])), "predecessor 9 of block 7 is no block of the job");
    assert_eq!(said(blocks(0)), "a job has at least one block, and at most 128");
    assert_eq!(said(blocks(129)), "the job has 129 blocks, and at most 128 are allowed");
    assert_eq!(said(blocks(1).block(Block::new(BlockId(0)))), "two blocks have the id 0");
    let assumed = blocks(1).block(Block::new(BlockId(9)).assuming(paths(256, 0)));
    assert_eq!(said(assumed), "block 9 has 256 assumed paths, and at most 255 are allowed");
}

#[test]
fn an_id_that_stands_twice_comes_before_one_that_names_no_block() {
    let job = blocks(1).block(Block::new(BlockId(1)).after([BlockId(9)])).block(Block::new(BlockId(1)));
    assert!(matches!(refused(job).wrong(), Wrong::Repeated(_)));
}

#[test]
fn single_and_bulk_forms_make_the_same_job() {
    let (one, two) = (Block::new(BlockId(1)), Block::new(BlockId(2)).after([BlockId(1)]));
    let single = Job::builder(BlockId(2)).block(one.clone()).block(two.clone());
    let single = single.candidate(path(1)).candidate(path(2)).build().unwrap();
    let bulk = Job::builder(BlockId(2)).blocks([one, two]).candidates([path(1), path(2)]).build().unwrap();
    assert_eq!(single, bulk);
    assert_eq!(HashSet::from([single.clone(), bulk]).len(), 1);
    assert_eq!(single.clone().into_bytes(), single.to_bytes());
}

#[test]
fn paths_are_compared_by_names_or_by_entries() {
    let parse = |text: &str| text.parse::<Path>().unwrap();
    let (plain, optional) = (parse("1@3.10.11"), parse("1?.10@4.11"));
    assert!(plain.same_names(&optional) && !plain.same_entries(&optional));
    assert!(plain.same_entries(&parse("reactive 1.10.11")));
    assert!(parse("1.10").names_start(&plain) && !plain.names_start(&parse("1.10")));
    assert!(!parse("1[10]").names_start(&plain) && !parse("2").names_start(&plain));
    assert_eq!(plain.prefix(1), parse("1@3.10"));
    assert_eq!(plain.prefix(9), plain);
}

#[test]
fn a_job_can_be_taken_apart_and_built_again() {
    let text = "scope 1 block 0 assumes 5 block 1 after 0 candidate 5.10";
    let job: Job = text.parse().unwrap();
    let (scope, blocks, candidates) = job.clone().into_parts();
    assert_eq!(Job::builder(scope).blocks(blocks).candidates(candidates).build().unwrap(), job);
}
