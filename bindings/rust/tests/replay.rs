//! The replay: it ends where the library ends, and its trace is a run of document 01's walks.

mod common;

use common::{all_bytes, jobs};
use scope_deps::replay::{Propagation, Replay, Side, Visit};
use scope_deps::{raw, sheet, strict_sheet, Job, ManyNodes, NodeId, Sheet};
use std::collections::{BTreeSet, HashMap};

/// A replay, and the library's sheet by the same propagation.
type Pair = (fn(&Job) -> Result<Replay, ManyNodes>, fn(&Job) -> Result<Sheet, ManyNodes>);

const EXISTING: Pair = (Replay::new, sheet);
const STRICT: Pair = (Replay::strict, strict_sheet);

/// How many replays ended with the library's sheet, and how many where the library refuses by 9;
/// and how many of the first did not settle, or took more than so many rounds.
fn ended_alike((replay, sheet): Pair, rounds: u8) -> [usize; 4] {
    let [mut same, mut refused, mut unsettled, mut many_rounds] = [0; 4];
    for bytes in all_bytes(11, 20_000) {
        let Ok(job) = Job::from_bytes(&bytes) else { continue };
        let Ok(replay) = replay(&job) else {
            assert_eq!(sheet(&job), Err(ManyNodes), "{job}");
            refused += 1;
            continue;
        };
        let sheet = sheet(&job).unwrap_or_else(|why| panic!("{why}:\n{job}"));
        assert!(replay.agrees_with(&job, &sheet), "{job}");
        same += 1;
        unsettled += usize::from(!replay.is_settled());
        many_rounds += usize::from(replay.rounds() > rounds);
    }
    [same, refused, unsettled, many_rounds]
}

#[test]
fn the_replay_ends_with_the_library_s_sheet_or_where_it_refuses_by_nine() {
    let [same, refused, unsettled, many_rounds] = ended_alike(EXISTING, 3);
    assert!(same > 10_000, "{same}");
    assert!(refused > 50 && unsettled > 10 && many_rounds > 100, "{refused} {unsettled} {many_rounds}");
}

#[test]
fn so_does_the_strict_one() {
    let [same, refused, _, many_rounds] = ended_alike(STRICT, 1);
    assert!(same > 10_000, "{same}");
    assert!(refused > 50 && many_rounds > 1_000, "{refused} {many_rounds}");
}

/// The neighbours of each block on a side, in the order in which document 01 takes them.
fn neighbours(job: &Job, block: usize, side: Side) -> Vec<usize> {
    let record = &job.blocks()[block];
    let place = |id| job.place_of(id).unwrap();
    match side {
        Side::Predecessors => record.predecessors().iter().map(|&id| place(id)).collect(),
        Side::Successors => {
            let after = job.blocks().iter().filter(|other| other.predecessors().contains(&record.id()));
            let ids: BTreeSet<_> = after.map(|other| other.id()).collect();
            ids.into_iter().map(place).collect()
        }
    }
}

/// The blocks in the order in which a depth-first walk leaves them, without recursion.
fn left_in_order(job: &Job, side: Side) -> Vec<usize> {
    let count = job.blocks().len();
    let starts: Vec<usize> = match side {
        Side::Predecessors => (0..count).collect(),
        Side::Successors => (0..count).rev().collect(),
    };
    let (mut seen, mut left) = (vec![false; count], Vec::new());
    for start in starts {
        if std::mem::replace(&mut seen[start], true) {
            continue;
        }
        let mut open = vec![(start, neighbours(job, start, side).into_iter())];
        while let Some((block, rest)) = open.last_mut() {
            let block = *block;
            match rest.find(|&near| !seen[near]) {
                Some(near) => {
                    seen[near] = true;
                    open.push((near, neighbours(job, near, side).into_iter()));
                }
                None => {
                    left.push(block);
                    open.pop();
                }
            }
        }
    }
    left
}

/// The sets of all blocks, as the events so far make them.
struct Sets(Vec<BTreeSet<NodeId>>);

impl Sets {
    fn at_the_start(job: &Job, replay: &Replay) -> Self {
        let assumed = |block: usize| replay.assumed(block).iter().copied().collect();
        let sets = Self((0..job.blocks().len()).map(assumed).collect());
        for (block, record) in job.blocks().iter().enumerate() {
            let nodes = replay.assumed(block);
            assert_eq!(nodes.len(), record.all_assumed().count());
            let same = |(node, path): (&NodeId, &scope_deps::Path)| replay.path(*node).same_entries(path);
            assert!(nodes.iter().zip(record.all_assumed()).all(same), "{job}");
        }
        sets
    }

    /// That the event can have happened to these sets; then what it makes of them.
    fn take(&mut self, job: &Job, replay: &Replay, visit: &Visit) {
        let mut in_common: Option<BTreeSet<NodeId>> = None;
        for &near in &visit.joined {
            let set = &self.0[near];
            in_common = Some(in_common.map_or_else(|| set.clone(), |common| &common & set));
        }
        let new: Vec<NodeId> = (&in_common.unwrap_or_default() - &self.0[visit.block]).into_iter().collect();
        assert_eq!(new, visit.came_in, "{job}");
        let set = &mut self.0[visit.block];
        set.extend(new);
        for replaced in &visit.replaced {
            let (from, to) = (replay.path(replaced.from), replay.path(replaced.to));
            assert!(from.same_names(&to) && set.remove(&replaced.from), "{job}");
            let marks = from.entries().iter().zip(to.entries()).enumerate();
            let made_plain = marks.filter(|(_, (from, to))| {
                assert!(from.optional || !to.optional);
                from.optional && !to.optional
            });
            let bases: Vec<_> = made_plain.map(|(level, _)| to.prefix(level)).collect();
            assert!(!bases.is_empty() && bases.len() == replaced.bases.len());
            for (base, &node) in bases.iter().zip(&replaced.bases) {
                assert!(replay.path(node).same_entries(base), "{job}");
                assert!(set.contains(&node), "{job}");
            }
            set.insert(replaced.to);
        }
    }
}

/// That the visits are whole walks, in the order in which a depth-first walk leaves the blocks.
fn check_walks(job: &Job, replay: &Replay) {
    let count = job.blocks().len();
    let sides = [Side::Predecessors, Side::Successors];
    let orders: HashMap<Side, Vec<usize>> = sides.map(|side| (side, left_in_order(job, side))).into();
    assert_eq!(replay.visits().len(), 2 * count * usize::from(replay.rounds()));
    for (number, walk) in replay.visits().chunks(count).enumerate() {
        let (round, side) = (1 + number / 2, sides[number % 2]);
        let left: Vec<usize> = walk.iter().map(|visit| visit.block).collect();
        assert_eq!(left, orders[&side], "{job}");
        for (at, visit) in walk.iter().enumerate() {
            assert_eq!((usize::from(visit.round), visit.side), (round, side));
            let near = neighbours(job, visit.block, side);
            let done = |near: &usize| left[..at].contains(near);
            let (finished, unfinished): (Vec<usize>, Vec<usize>) = near.iter().copied().partition(done);
            let (joined, passed_over) = match replay.propagation() {
                Propagation::Existing => (finished, unfinished.clone()),
                Propagation::Strict if unfinished.is_empty() => (near, Vec::new()),
                Propagation::Strict => (Vec::new(), near),
            };
            let traced = (&visit.joined, &visit.passed_over, &visit.unfinished);
            assert_eq!((&joined, &passed_over, &unfinished), traced, "{job}");
        }
    }
}

/// That the sets that the events make are the library's.
fn check_sets(job: &Job, replay: &Replay, sheet: &Sheet) {
    let mut sets = Sets::at_the_start(job, replay);
    replay.visits().iter().for_each(|visit| sets.take(job, replay, visit));
    for (set, (_, held)) in sets.0.iter().zip(sheet.sets()) {
        assert!(set.iter().copied().eq(held.iter()), "{job}");
    }
}

#[test]
fn the_trace_is_a_run_of_the_walks_and_its_events_make_the_sheet() {
    for (propagation, (replay, sheet)) in [(Propagation::Existing, EXISTING), (Propagation::Strict, STRICT)] {
        let [mut came_in, mut replaced, mut passed_over, mut unfinished] = [0; 4];
        for job in jobs(12, 3_000) {
            let Ok(replay) = replay(&job) else { continue };
            assert_eq!(replay.propagation(), propagation);
            check_walks(&job, &replay);
            check_sets(&job, &replay, &sheet(&job).unwrap());
            let count = |of: fn(&Visit) -> usize| replay.visits().iter().map(of).sum::<usize>();
            came_in += count(|visit| visit.came_in.len());
            replaced += count(|visit| visit.replaced.len());
            passed_over += count(|visit| visit.passed_over.len());
            unfinished += count(|visit| visit.unfinished.len());
        }
        let counts = [came_in, replaced, passed_over, unfinished];
        assert!(came_in > 10_000 && replaced > 1_000 && unfinished > 10_000, "{counts:?}");
        assert_eq!(passed_over > unfinished, propagation == Propagation::Strict, "{counts:?}");
    }
}

#[test]
fn without_loops_both_replays_are_the_same_and_with_loops_some_differ() {
    let [mut without_loops, mut differ] = [0; 2];
    for job in jobs(13, 5_000) {
        let (Ok(existing), Ok(strict)) = (Replay::new(&job), Replay::strict(&job)) else { continue };
        if existing.visits().iter().all(|visit| visit.unfinished.is_empty()) {
            assert_eq!(existing.visits(), strict.visits(), "{job}");
            without_loops += 1;
        } else {
            differ += usize::from(!strict.agrees_with(&job, &sheet(&job).unwrap()));
        }
    }
    assert!(without_loops > 500 && differ > 500, "{without_loops} {differ}");
}

#[test]
fn a_sheet_with_one_thing_changed_is_not_agreed_with() {
    let job: Job = "scope 1 block 0 assumes 1, 1?.10@4 block 1 after 0".parse().unwrap();
    let replay = Replay::new(&job).unwrap();
    let bytes = raw::sheet(&job.to_bytes()).unwrap();
    assert!(replay.agrees_with(&job, &Sheet::from_bytes(&bytes).unwrap()));
    let mut changed = 0;
    for (place, bit) in (0..bytes.len()).flat_map(|place| (0..8).map(move |bit| (place, bit))) {
        let mut other = bytes.clone();
        other[place] ^= 1 << bit;
        // Some bits make it no sheet at all, or one of a root's bytes that stand for nothing.
        let Ok(other) = Sheet::from_bytes(&other) else { continue };
        if other != Sheet::from_bytes(&bytes).unwrap() {
            assert!(!replay.agrees_with(&job, &other), "bit {bit} of byte {place}");
            changed += 1;
        }
    }
    assert!(changed > 100, "{changed}");
}

#[test]
fn a_block_that_is_being_visited_is_passed_over() {
    let text =
        "scope 2 block 2 block 0 after 3, 1, 2 block 3 after 0, 1 block 1 after 0 assumes 2 candidate 2.10";
    let job: Job = text.parse().unwrap();
    let replay = Replay::new(&job).unwrap();
    let place = |id| job.place_of(scope_deps::BlockId(id)).unwrap();
    let of_0 = |visit: &&Visit| visit.block == place(0) && visit.side == Side::Predecessors;
    let visit = replay.visits().iter().find(of_0).unwrap();
    assert_eq!(visit.joined, [place(3), place(1), place(2)]);
    let of_3 = |visit: &&Visit| visit.block == place(3) && visit.side == Side::Predecessors;
    assert_eq!(replay.visits().iter().find(of_3).unwrap().passed_over, [place(0)]);
    let of_0 = |visit: &&Visit| visit.block == place(0) && visit.side == Side::Successors;
    let visit = replay.visits().iter().find(of_0).unwrap();
    assert_eq!((&visit.joined[..], &visit.passed_over[..]), (&[place(3)][..], &[place(1)][..]));
}

/// Block 0 has predecessors that are all done, block 3 one that is and one that is being visited,
/// and block 1 none.
#[test]
fn the_strict_one_joins_all_or_none() {
    let text = "scope 2 block 2 block 0 after 3, 1, 2 block 3 after 0, 1 block 1 assumes 2 candidate 2.10";
    let job: Job = text.parse().unwrap();
    let replay = Replay::strict(&job).unwrap();
    let place = |id| job.place_of(scope_deps::BlockId(id)).unwrap();
    let of = |id| {
        let of_block = |visit: &&Visit| visit.block == place(id) && visit.side == Side::Predecessors;
        replay.visits().iter().find(of_block).unwrap()
    };
    assert_eq!(of(0).joined, [place(3), place(1), place(2)]);
    assert!(of(0).passed_over.is_empty() && of(0).unfinished.is_empty());
    assert!(of(3).joined.is_empty() && of(3).came_in.is_empty());
    assert_eq!((&of(3).passed_over[..], &of(3).unfinished[..]), (&[place(0), place(1)][..], &[place(0)][..]));
    assert!(of(1).joined.is_empty() && of(1).passed_over.is_empty());
}

/// The first read is not kept, and enters nothing; the second makes the node of `1` and so has its
/// span, before the path that stands after `assumes`.
#[test]
fn raw_reads_that_are_kept_are_entered_before_assumed_paths() {
    let text =
        "scope 0 block 0 reads 2@7.10@8 at 3 range 0 to 2 scope 0 to 9 reads reactive 1@5 at 3 range 0 to 1 \
                assumes 3, 1@6.11 block 1 after 0 reads 2 at 9 range 0 to 2 scope 0 to 9";
    let job: Job = text.parse().unwrap();
    for (replay, sheet) in [EXISTING, STRICT] {
        let replay = replay(&job).unwrap();
        let paths: Vec<String> = replay.nodes().map(|node| replay.path(node).to_string()).collect();
        assert_eq!(paths, ["reactive 1@5", "3", "reactive 1@5.11", "2"]);
        assert_eq!((replay.assumed(0), replay.assumed(1)), (&[0, 1, 2].map(NodeId)[..], &[NodeId(3)][..]));
        assert!(replay.agrees_with(&job, &sheet(&job).unwrap()));
    }
}

#[test]
fn a_read_that_is_not_kept_plays_no_part() {
    let read = "reads 1 at 3 range 0 to 2 scope 0 to 9";
    let with = |read: &str| {
        format!("scope 1 block 0 {read} assumes 5 block 1 after 0 candidate 1.10").parse::<Job>()
    };
    let (dropped, without) = (with(read).unwrap(), with("").unwrap());
    assert_ne!(dropped, without);
    assert_eq!((sheet(&dropped), strict_sheet(&dropped)), (sheet(&without), strict_sheet(&without)));
    let kept = with(&format!("{read} immutable")).unwrap();
    assert_ne!(sheet(&kept), sheet(&without));
    assert_eq!(sheet(&kept).unwrap().nodes().len(), 2);
}

#[test]
fn debug_shows_nodes_and_not_the_bits_of_sets() {
    let job: Job = "scope 1 block 0 assumes 1?.10 block 1 after 0 assumes 1".parse().unwrap();
    let shown = format!("{:?}", Replay::new(&job).unwrap());
    let nodes = r#"nodes: {NodeId(0): "1", NodeId(1): "1?.10", NodeId(2): "1.10"}"#;
    assert!(shown.contains(nodes) && shown.contains("propagation: Existing"), "{shown}");
    assert!(shown.contains("sets: [{NodeId(0), NodeId(2)}, {NodeId(0), NodeId(2)}]"), "{shown}");
}

#[test]
fn a_job_with_too_many_nodes_is_refused_as_the_stage_refuses_it() {
    let paths: Vec<String> = (0..=512).map(|id| id.to_string()).collect();
    let blocks =
        paths.chunks(64).enumerate().map(|(id, paths)| format!("block {id} assumes {}", paths.join(", ")));
    let job: Job = format!("scope 0 {}", blocks.collect::<Vec<_>>().join(" ")).parse().unwrap();
    assert_eq!(Replay::new(&job).unwrap_err(), sheet(&job).unwrap_err());
    assert_eq!(Replay::strict(&job).unwrap_err(), strict_sheet(&job).unwrap_err());
}
