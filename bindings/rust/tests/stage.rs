//! The stage with its buffers: the same answers and sheets, and no memory taken after it is made.

mod common;

use common::{all_bytes, jobs};
use scope_deps::{
    answer, limits, raw, sheet, strict_answer, strict_sheet, Answer, Job, ManyNodes, Refusal, Sheet, Stage,
};
use std::alloc::{GlobalAlloc, Layout, System};
use std::cell::Cell;

/// Counts what each thread asks for.
struct Counting;

thread_local! {
    static ASKED: Cell<usize> = const { Cell::new(0) };
}

// SAFETY: all is left to the system's allocator.
unsafe impl GlobalAlloc for Counting {
    unsafe fn alloc(&self, layout: Layout) -> *mut u8 {
        ASKED.with(|asked| asked.set(asked.get() + 1));
        unsafe { System.alloc(layout) }
    }

    unsafe fn dealloc(&self, pointer: *mut u8, layout: Layout) {
        unsafe { System.dealloc(pointer, layout) }
    }
}

#[global_allocator]
static ALLOCATOR: Counting = Counting;

fn asked() -> usize {
    ASKED.with(Cell::get)
}

#[test]
fn one_stage_answers_as_a_new_one_does() {
    let mut stage = Stage::new();
    let mut answered = 0;
    for job in jobs(6, 3_000) {
        assert_eq!(stage.answer(&job).cloned(), answer(&job));
        assert_eq!(stage.sheet(&job).cloned(), sheet(&job));
        assert_eq!(stage.answer_bytes(job.as_bytes()).map(<[u8]>::to_vec), raw::answer(job.as_bytes()));
        assert_eq!(stage.sheet_bytes(job.as_bytes()).map(<[u8]>::to_vec), raw::sheet(job.as_bytes()));
        answered += usize::from(stage.answer(&job).is_ok());
    }
    assert!(answered > 1_500, "{answered}");
}

#[test]
fn so_it_does_by_the_strict_propagation() {
    let mut stage = Stage::new();
    let [mut answered, mut differ] = [0; 2];
    for job in jobs(6, 3_000) {
        let bytes = job.as_bytes();
        assert_eq!(stage.strict_answer(&job).cloned(), strict_answer(&job));
        assert_eq!(stage.strict_sheet(&job).cloned(), strict_sheet(&job));
        assert_eq!(stage.strict_answer_bytes(bytes).map(<[u8]>::to_vec), raw::strict_answer(bytes));
        assert_eq!(stage.strict_sheet_bytes(bytes).map(<[u8]>::to_vec), raw::strict_sheet(bytes));
        let (typed, written) = (strict_answer(&job), raw::strict_answer(bytes));
        assert_eq!(typed.ok(), written.ok().map(|written| Answer::from_bytes(&written).unwrap()));
        let (typed, written) = (strict_sheet(&job), raw::strict_sheet(bytes));
        assert_eq!(typed.ok(), written.ok().map(|written| Sheet::from_bytes(&written).unwrap()));
        answered += usize::from(stage.strict_answer(&job).is_ok());
        differ += usize::from(raw::strict_sheet(bytes) != raw::sheet(bytes));
    }
    assert!(answered > 1_500 && differ > 100, "{answered} {differ}");
}

/// Whether no block can be come to again.
fn has_no_loop(job: &Job) -> bool {
    let mut left: Vec<_> = job.blocks().iter().collect();
    loop {
        let ids: Vec<_> = left.iter().map(|block| block.id()).collect();
        // Blocks that no block is left before are on no loop.
        left.retain(|block| block.predecessors().iter().any(|id| ids.contains(id)));
        if left.len() == ids.len() {
            return left.is_empty();
        }
    }
}

#[test]
fn without_loops_both_propagations_write_the_same_bytes() {
    let [mut without_loops, mut differ] = [0; 2];
    for job in jobs(8, 4_000) {
        let bytes = job.as_bytes();
        let (existing, strict) =
            ((raw::answer(bytes), raw::sheet(bytes)), (raw::strict_answer(bytes), raw::strict_sheet(bytes)));
        if has_no_loop(&job) {
            assert_eq!(strict, existing, "{job}");
            without_loops += 1;
        } else {
            differ += usize::from(strict != existing);
        }
    }
    assert!(without_loops > 500 && differ > 100, "{without_loops} {differ}");
}

#[test]
fn a_small_job_tells_the_propagations_apart() {
    let job: Job = "scope 1 block 0 assumes 1 block 1 after 1, 0 candidate 1.10".parse().unwrap();
    assert_eq!(answer(&job).unwrap().to_string(), "rounds 2, settled\nreturned 1.10\n");
    assert_eq!(strict_answer(&job).unwrap().to_string(), "rounds 1, settled\nreturned 1\n");
}

/// The same paths for each of so many variables.
fn of_variables(count: usize, paths: &[&str]) -> String {
    let of_variable = |variable| paths.iter().map(move |path| format!(" assumes {variable}{path}"));
    (0..count).flat_map(of_variable).collect()
}

/// Which nodes reduction makes depends on what blocks have taken over, so that either propagation
/// may have more of them.
#[test]
fn each_propagation_is_refused_by_its_own_nodes() {
    let job = |count| -> Job {
        let (of_0, of_1) = (of_variables(count, &[""]), of_variables(count, &["?.10", "?.10?.10"]));
        format!("scope 1 block 0{of_0} block 1 after 1, 0{of_1}").parse().unwrap()
    };
    let nodes = |job: &Job| (sheet(job).unwrap().nodes().len(), strict_sheet(job).unwrap().nodes().len());
    assert_eq!(nodes(&job(1)), (5, 6));
    assert_eq!(sheet(&job(100)).unwrap().nodes().len(), 500);
    assert_eq!((strict_answer(&job(100)), strict_sheet(&job(100))), (Err(ManyNodes), Err(ManyNodes)));
    let job = |count| -> Job {
        let (of_1, of_2) = (of_variables(count, &[""]), of_variables(count, &["?.10?.10"]));
        format!("scope 1 block 0 block 1 after 1{of_1} block 2 after 1, 0{of_2}").parse().unwrap()
    };
    let (existing, strict) = nodes(&job(1));
    assert!(existing > strict, "{existing} {strict}");
    let count = limits::NODES / strict;
    assert_eq!(strict_sheet(&job(count)).unwrap().nodes().len(), count * strict);
    assert_eq!((answer(&job(count)), sheet(&job(count))), (Err(ManyNodes), Err(ManyNodes)));
}

#[test]
fn no_call_allocates() {
    let entries = ".1?.2[3]".repeat(5);
    let most = (0..limits::CANDIDATES).map(|variable| format!(" assumes {variable}{entries}, {variable}"));
    let most = format!("scope 0 block 0{}", most.collect::<String>()).replace("assumes 0", "assumes 900");
    let wide = (0..64).map(|variable| format!(" candidate {variable}?.1?.2?.3?.4?.5?.6?.7"));
    let wide = format!("scope 0 block 0{}", wide.collect::<String>()).parse::<Job>().unwrap();
    let all: Vec<Job> = [wide].into_iter().chain(most.parse()).chain(jobs(7, 2_000)).collect();
    let mut stage = Stage::new();
    let (before, mut paths, mut nodes, mut strict) = (asked(), 0, 0, (0, 0));
    for job in &all {
        paths = paths.max(stage.answer(job).map_or(0, |answer| answer.paths().len()));
        nodes = nodes.max(stage.sheet(job).map_or(0, |sheet| sheet.nodes().len()));
        strict.0 = strict.0.max(stage.strict_answer(job).map_or(0, |answer| answer.paths().len()));
        strict.1 = strict.1.max(stage.strict_sheet(job).map_or(0, |sheet| sheet.nodes().len()));
        assert!(stage.thin(job).len() <= job.as_bytes().len());
    }
    assert_eq!(asked(), before);
    assert_eq!((paths, nodes), (limits::CANDIDATES, limits::NODES));
    assert_eq!(strict, (paths, nodes));
    assert!(asked() > 0, "the allocator of this test is in use");
}

#[test]
fn a_job_is_refused_by_9_only_and_the_stage_goes_on() {
    let assumed: String = (0..255).map(|name| format!(" assumes 1.{name}.0.1")).collect();
    let job: Job = format!("scope 7 block 7{assumed}").parse().unwrap();
    let mut stage = Stage::new();
    assert_eq!(stage.answer(&job), Err(ManyNodes));
    assert_eq!(stage.sheet(&job), Err(ManyNodes));
    assert_eq!(stage.strict_answer(&job), Err(ManyNodes));
    assert_eq!(stage.strict_sheet(&job), Err(ManyNodes));
    assert_eq!(Refusal::from(ManyNodes).number(), ManyNodes::NUMBER);
    assert_eq!(ManyNodes.to_string(), Refusal::ManyNodes.to_string());
    let small: Job = "scope 7 block 7 candidate 1".parse().unwrap();
    assert_eq!(stage.answer(&small).unwrap().paths().len(), 1);
    assert_eq!(stage.answer_bytes(b"HD").unwrap_err().number(), 3);
    assert_eq!(stage.strict_answer(&small).unwrap().paths().len(), 1);
    assert_eq!(stage.strict_answer_bytes(b"HD").unwrap_err().number(), 3);
}

#[test]
fn bytes_are_refused_alike_by_both_propagations_but_for_9() {
    let mut refused = 0;
    for bytes in all_bytes(9, 3_000) {
        let Err(refusal) = Job::from_bytes(&bytes) else { continue };
        assert_eq!(raw::strict_answer(&bytes), Err(refusal));
        assert_eq!(raw::strict_sheet(&bytes), Err(refusal));
        refused += 1;
    }
    assert!(refused > 100, "{refused}");
    let job: Job = "scope 7 block 7 candidate 1".parse().unwrap();
    let mut out = vec![7; limits::OUT_BYTES];
    for write in [raw::strict_answer_into, raw::strict_sheet_into] {
        assert_eq!(write(job.as_bytes(), &mut out[1..]).unwrap_err().number(), 1);
        assert!(out.iter().all(|&byte| byte == 7));
    }
    let length = raw::strict_answer_into(job.as_bytes(), &mut out).unwrap();
    assert_eq!(Ok(out[..length].to_vec()), raw::strict_answer(job.as_bytes()));
    assert!(out[length..].iter().all(|&byte| byte == 7));
}

#[test]
fn answers_and_sets_are_iterated_by_value() {
    let job: Job = "scope 7 block 7 assumes 5, 6.1, 8 candidate 5.1, 6.1".parse().unwrap();
    let returned = answer(&job).unwrap();
    let borrowed: Vec<_> = (&returned).into_iter().cloned().collect();
    assert_eq!(returned.clone().into_iter().collect::<Vec<_>>(), borrowed);
    assert_eq!(returned.into_paths(), borrowed);
    let sheet = sheet(&job).unwrap();
    let (_, set) = sheet.sets().next().unwrap();
    assert_eq!(set.into_iter().map(|node| node.0).collect::<Vec<_>>(), [0, 2, 3]);
    assert_eq!((set.len(), set.iter().len()), (3, 3));
    assert_eq!(format!("{set:?}"), "{NodeId(0), NodeId(2), NodeId(3)}");
}
