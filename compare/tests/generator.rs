//! The generator: the same jobs again, and what each class promises.

#[cfg(reference)]
use compare::counts::Counts;
use compare::generate::{class_names, generate};
use compare::job::limits;
#[cfg(reference)]
use compare::oracle::Oracle;
#[cfg(reference)]
use compare::propagation::{
    Mistake::PassesActiveOver,
    Propagation::{Existing, Own, Strict},
};
use compare::reader::read_job;
use compare::reads;

#[test]
fn a_seed_and_a_number_give_the_same_job() {
    for number in 0..200 {
        let (a, b) = (generate(5, number, None), generate(5, number, None));
        assert_eq!((a.class, a.out_len, &a.job), (b.class, b.out_len, &b.job));
    }
    assert!((0..20).any(|number| generate(5, number, None).job != generate(6, number, None).job));
}

#[test]
fn jobs_without_faults_are_accepted_by_the_reader() {
    let sound = [
        "no-loops",
        "loops",
        "reduction",
        "tree",
        "numbers",
        "ladder",
        "nodes-entered",
        "nodes-reduced",
        "nodes-late",
        "repeats",
        "many-loops",
        "nodes-looped",
    ];
    for class in sound {
        for number in 0..300 {
            let generated = generate(1, number, Some(class));
            let refused = read_job(&generated.job, generated.out_len).err();
            assert!(refused.is_none() || refused == Some(2), "{class} {number}: {refused:?}");
        }
    }
}

#[test]
fn every_refusal_of_the_reader_comes_up() {
    let mut met = [0; 11];
    for number in 0..3000 {
        let generated = generate(2, number, None);
        if let Err(refusal) = read_job(&generated.job, generated.out_len) {
            met[usize::from(refusal)] += 1;
        }
    }
    let [_, to_eight @ .., nine, ten] = met;
    assert!(to_eight.iter().chain([&ten]).all(|&count| count > 2) && nine == 0, "{met:?}");
}

/// Most jobs have no raw reads, and of each class some have, kept ones and others.
#[test]
fn raw_reads_come_up_in_all_classes_of_sound_jobs() {
    for class in class_names().filter(|class| *class != "job-size") {
        let (mut none, mut some) = (0, [0; 2]);
        for number in 0..400 {
            let generated = generate(8, number, Some(class));
            let Ok(job) = read_job(&generated.job, limits::OUT_BYTES) else { continue };
            let counted = reads::counted(&job);
            none += usize::from(counted == [0; 2]);
            some[0] += usize::from(counted[0] > 0);
            some[1] += usize::from(counted[1] > 0);
        }
        assert!(none > 10 && some.iter().all(|&jobs| jobs >= 5), "{class}: {none} {some:?}");
    }
}

#[test]
fn jobs_of_the_largest_size_are_accepted_too() {
    let jobs = || (0..40).map(|number| generate(3, number, Some("job-size")).job);
    let full = jobs().filter(|job| job.len() == limits::JOB_BYTES);
    assert!(full.clone().count() > 0);
    assert!(full.clone().all(|job| read_job(&job, limits::OUT_BYTES).is_ok()));
    assert!(jobs().any(|job| job.len() == limits::JOB_BYTES + 1));
}

#[test]
fn all_classes_have_names_of_their_own() {
    let mut names: Vec<&str> = class_names().collect();
    names.sort();
    names.dedup();
    assert_eq!(names.len(), class_names().count());
}

#[cfg(reference)]
#[test]
fn node_counts_are_reached_as_promised() {
    let mut oracle = Oracle::open().unwrap();
    for class in ["nodes-entered", "nodes-reduced"] {
        let mut met = std::collections::BTreeSet::new();
        for number in 0..60 {
            let generated = generate(4, number, Some(class));
            let counts = oracle.both(Existing, &generated.job, generated.out_len).counts.unwrap();
            assert_eq!(class == "nodes-reduced", counts.made() > 0);
            met.insert(counts.nodes);
        }
        assert!(met.iter().copied().eq(511..=514), "{class}: {met:?}");
    }
}

#[cfg(reference)]
#[test]
fn ladders_reach_many_rounds_and_go_beyond_the_last() {
    let mut oracle = Oracle::open().unwrap();
    let mut met = std::collections::BTreeSet::new();
    for number in 0..300 {
        let generated = generate(6, number, Some("ladder"));
        let counts = oracle.both(Existing, &generated.job, generated.out_len).counts.unwrap();
        met.insert((counts.rounds, counts.settled));
    }
    assert!(met.len() > 30, "{met:?}");
    assert!(met.contains(&(100, false)), "{met:?}");
}

#[cfg(reference)]
#[test]
fn nodes_in_loops_are_reached_by_one_propagation() {
    let mut oracle = Oracle::open().unwrap();
    let mut met = [std::collections::BTreeSet::new(), std::collections::BTreeSet::new()];
    for number in 0..200 {
        let generated = generate(4, number, Some("nodes-looped"));
        let mut nodes = |by| oracle.both(by, &generated.job, generated.out_len).counts.unwrap().nodes;
        let counts = [nodes(Existing), nodes(Strict)];
        assert_ne!(counts[0], counts[1], "job {number}");
        met[usize::from(counts[1] > counts[0])].insert(counts[0].max(counts[1]));
    }
    assert!(met.iter().all(|met| met.iter().copied().eq(511..=514)), "{met:?}");
}

#[cfg(reference)]
#[test]
fn operations_agree_with_all() {
    let mut oracle = Oracle::open().unwrap();
    for number in 0..500 {
        let generated = generate(7, number, None);
        let all = oracle.all(&generated.job, generated.out_len);
        for (operation, said) in all.said() {
            assert_eq!(oracle.say(operation, &generated.job, generated.out_len), *said);
        }
    }
}

/// The harness's own strict propagation is the Rust's text with the joining step exchanged, and
/// with Active neighbours passed over it is the Rust's.
#[cfg(reference)]
#[test]
fn the_harnesss_own_words_agree_with_the_rusts_text() {
    let mut oracle = Oracle::open().unwrap();
    for class in [None, Some("many-loops"), Some("nodes-looped"), Some("ladder")] {
        for number in 0..if class == Some("ladder") { 200 } else { 2000 } {
            let generated = generate(9, number, class);
            let mut both = |by| {
                let both = oracle.both(by, &generated.job, generated.out_len);
                let counts = both.counts.map(|counts| Counts { nodes_after_forward: None, ..counts });
                (both.answer, both.sheet, counts)
            };
            assert_eq!(both(Own(None)), both(Strict), "{class:?} {number}");
            assert_eq!(both(Own(Some(PassesActiveOver))), both(Existing), "{class:?} {number}");
        }
    }
}
