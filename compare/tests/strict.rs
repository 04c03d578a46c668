//! The strict propagation: the examples of src/examples.rs under both, and that the comparison sees
//! each propagation that is nearly right.
#![cfg(reference)]

mod common;

use common::{answer, block, job, sets, sheet, texts, write};
use compare::comparison::Comparison;
use compare::comparison::run::{Generated, fixed_jobs, generated_jobs};
use compare::examples::{example, examples};
use compare::job::{Job, limits};
use compare::library::Stage;
use compare::operation::Operation;
use compare::oracle::{Both, Oracle};
use compare::propagation::Mistake;
use compare::propagation::Propagation::{self, Existing, Own, Strict};

fn run(propagation: Propagation, job: &Job) -> Both {
    Oracle::open().unwrap().both(propagation, &job.to_bytes(), limits::OUT_BYTES)
}

/// Sets, rounds, nodes and returned paths.
type Outcome<'t> = (&'t str, u8, usize, &'t str);

fn expect(name: &str, propagation: Propagation, (due_sets, rounds, nodes, returned): Outcome) {
    let both = run(propagation, &example(name));
    let counts = both.counts.unwrap();
    assert!(counts.settled, "{name}");
    let sets = sets(&sheet(&both.sheet.unwrap())).join("; ");
    let came = (sets.as_str(), counts.rounds, counts.nodes, &*texts(&answer(&both.answer.unwrap()).returned));
    assert_eq!(came, (due_sets, rounds, nodes, returned), "{name}, {propagation:?}");
}

/// Each example with what it gives under the existing propagation, and under the strict one.
const EXPECTED: [(&str, Outcome, Outcome); 18] = [
    // P3: block 3 holds 5 under the existing one, though 0, 1, 3, 1, 4 avoids block 2.
    ("avoided-in-a-loop", ("; ; 5; 5; ", 2, 1, "5.10"), ("; ; 5; ; ", 1, 1, "5")),
    ("own-predecessor", ("1; 1", 2, 1, "1.10"), ("1; ", 1, 1, "1")),
    ("kept-before-a-loop", ("5; 5; 5", 2, 1, "5.10"), ("5; 5; 5", 2, 1, "5.10")),
    ("kept-after-a-loop", ("5; 5; 5", 2, 1, "5.10"), ("5; 5; 5", 2, 1, "5.10")),
    ("reduced-in-a-loop", ("1, 1.10.11; 1, 1.10.11", 2, 5, "1.10.12"), ("1, 1.10.11; 1?.10.11", 2, 5, "1")),
    (
        "reduced-where-nothing-joins",
        ("1, 1.10; 2, 2.10", 2, 6, "1.10.11, 2"),
        ("1, 1.10; 2, 2.10", 2, 6, "1.10.11, 2"),
    ),
    (
        "more-nodes-strictly",
        ("1, 1.10, 1.10.10; 1, 1.10, 1.10.10", 2, 5, "1.10.10"),
        ("1, 1.10, 1.10.10; 1?.10, 1?.10.10", 2, 6, "1"),
    ),
    (
        "fewer-nodes-strictly",
        ("1?.10?.10; 1, 1.10?.10; 1?.10?.10", 2, 5, "1"),
        ("1?.10?.10; 1; 1?.10?.10", 2, 3, "1"),
    ),
    // What is returned strictly is not always shorter.
    (
        "longer-strictly",
        ("1, 1.10; 1, 1.10; 1?.10; ", 2, 3, "1?.10"),
        ("1, 1.10; 1?.10; 1?.10; 1?.10", 2, 3, "1?.10.11"),
    ),
    ("active-among-done", ("5; 5; 5", 2, 1, "5.10"), ("5; ; ", 1, 1, "5")),
    ("active-with-the-path", ("5; 5; 5; 5", 2, 1, "5.10"), ("5; 5; ; ", 1, 1, "5")),
    ("loop-of-two-entries", ("5; 5; 5; 5; 5", 2, 1, "5.10"), ("5; ; ; ; ", 1, 1, "5")),
    ("walk-starts-in-a-loop", ("5; 5; 5", 2, 1, "5.10"), ("; ; 5", 1, 1, "5")),
    // Where there is a loop, paths still pass it.
    ("unreachable-loop", ("5; 5; 5; 5", 2, 1, "5.10"), ("5; 5; 5; 5", 2, 1, "5.10")),
    ("no-start", ("5; 5; 5", 2, 1, "5.10"), ("5; 5; 5", 2, 1, "5.10")),
    ("no-end", ("5; 5; 5", 2, 1, "5.10"), ("5; 5; ", 2, 1, "5")),
    (
        "after-its-own-loop",
        ("5, 6, 7; 5, 6, 7; 5, 6, 7; 5, 6, 7", 2, 3, "5.10, 6.10, 7.10"),
        ("5, 6; 6; 6, 7; 6, 7", 2, 3, "5, 6.10, 7.10"),
    ),
    ("changed-by-set", ("1, 1.10", 2, 3, ""), ("1, 1.10", 2, 3, "")),
];

#[test]
fn named_examples() {
    for (name, existing, strict) in EXPECTED {
        expect(name, Existing, existing);
        expect(name, Strict, strict);
    }
}

/// How many nodes there are under each propagation, and which of the two 9 refuses.
#[test]
fn nine_counts_the_nodes_of_each_propagation() {
    let counted = |name: &str| {
        [Existing, Strict].map(|propagation| {
            let both = run(propagation, &example(name));
            assert_eq!(both.answer.as_ref().err(), both.sheet.as_ref().err());
            (both.counts.unwrap().nodes, both.answer.err())
        })
    };
    assert_eq!(counted("refused-by-the-existing-alone"), [(513, Some(9)), (511, None)]);
    assert_eq!(counted("refused-strictly-alone"), [(512, None), (513, Some(9))]);
}

#[test]
fn hundred_rounds_are_few_strictly() {
    let ended = |propagation, name: &str| {
        let both = run(propagation, &example(name));
        let counts = both.counts.unwrap();
        (counts.rounds, counts.settled, texts(&answer(&both.answer.unwrap()).returned))
    };
    assert_eq!(ended(Existing, "100-rounds-settled"), (100, true, "1.10.11.12.13.14".into()));
    assert_eq!(ended(Existing, "100-rounds-not-settled"), (100, false, "1.10.11.12".into()));
    for name in ["100-rounds-settled", "100-rounds-not-settled"] {
        assert_eq!(ended(Strict, name), (2, true, "1".into()), "{name}");
    }
}

/// Without loops the order of blocks does not matter, nor the rule.
#[test]
fn without_loops_both_are_the_same() {
    let mut seen = 0;
    for example in examples() {
        if !example.job.has_loop() {
            let [existing, strict] = [Existing, Strict].map(|propagation| run(propagation, &example.job));
            assert_eq!((existing.answer, existing.sheet), (strict.answer, strict.sheet), "{}", example.name);
            seen += 1;
        }
    }
    assert!(seen > 20);
    let diamond = vec![block(3, &[1, 2], ""), block(1, &[0], "5"), block(2, &[0], "5"), block(0, &[], "")];
    assert_eq!(sets(&sheet(&run(Strict, &job(0, diamond, "")).sheet.unwrap())), ["5", "5", "5", "5"]);
}

/// A stage with a strict propagation of its own.
struct WithStrict<F> {
    oracle: Oracle,
    strict: F,
}

impl<F: FnMut(&mut Oracle, &[u8], usize) -> Both> Stage for WithStrict<F> {
    fn call(&mut self, operation: Operation, job: &[u8], out: &mut [u8]) -> i64 {
        let mut strict = || (self.strict)(&mut self.oracle, job, out.len());
        let said = match operation {
            Operation::StrictAnswer => strict().answer,
            Operation::StrictSheet => strict().sheet,
            _ => self.oracle.say(operation, job, out.len()),
        };
        write(&said, out)
    }
}

/// What the comparison says in the fixed list, and on generated jobs of a class.
fn seen(strict: impl FnMut(&mut Oracle, &[u8], usize) -> Both, class: &str) -> [Option<String>; 2] {
    let mut stage = WithStrict { oracle: Oracle::open().unwrap(), strict };
    let mut comparison = Comparison::new(Oracle::open().unwrap(), &mut stage);
    let fixed = fixed_jobs(&mut comparison).err();
    let asked = Generated { seed: 3, first: 0, count: 2000, time: None, class: Some(class) };
    let generated = generated_jobs(&mut comparison, &asked).err();
    [fixed, generated].map(|mismatch| mismatch.map(|mismatch| mismatch.what))
}

#[test]
fn each_mistake_is_seen_in_the_fixed_list_and_in_the_class() {
    for mistake in Mistake::ALL {
        let wrong = |oracle: &mut Oracle, job: &[u8], out_len| oracle.both(Own(Some(mistake)), job, out_len);
        for what in seen(wrong, "many-loops") {
            let what = what.unwrap_or_else(|| panic!("{} is not seen", mistake.text()));
            assert!(what.contains(": strict_") && what.contains("the harness says"), "{what}");
        }
    }
}

#[test]
fn refusals_by_the_other_propagations_nodes_are_seen() {
    let wrong = |oracle: &mut Oracle, job: &[u8], out_len| {
        let (existing, strict) = (oracle.both(Existing, job, out_len), oracle.both(Strict, job, out_len));
        if existing.answer.is_err() || strict.answer.is_err() { existing } else { strict }
    };
    for what in seen(wrong, "nodes-looped") {
        assert!(what.unwrap().contains(": strict_answer: returned "));
    }
    let right = |oracle: &mut Oracle, job: &[u8], out_len| oracle.both(Strict, job, out_len);
    assert_eq!(seen(right, "nodes-looped"), [None, None]);
}

/// The stored examples tell each mistake from the strict propagation.
#[test]
fn each_mistake_differs_on_an_example() {
    for mistake in Mistake::ALL {
        let differs = |job: &Job| {
            let [right, wrong] = [Strict, Own(Some(mistake))].map(|propagation| run(propagation, job));
            (right.answer, right.sheet) != (wrong.answer, wrong.sheet)
        };
        assert!(examples().iter().any(|example| differs(&example.job)), "{}", mistake.text());
    }
}

#[test]
fn the_class_has_what_it_promises() {
    let mut stage = WithStrict {
        oracle: Oracle::open().unwrap(),
        strict: |oracle: &mut Oracle, job: &[u8], out_len| oracle.both(Strict, job, out_len),
    };
    let mut comparison = Comparison::new(Oracle::open().unwrap(), &mut stage);
    let asked = |class| Generated { seed: 12, first: 0, count: 2000, time: None, class: Some(class) };
    let loops = generated_jobs(&mut comparison, &asked("many-loops")).unwrap();
    assert!(loops.propagations.with_loops > 1500 && loops.propagations.differing > 800);
    let nodes = generated_jobs(&mut comparison, &asked("nodes-looped")).unwrap();
    assert!(nodes.propagations.refused_by_one.iter().all(|&count| count > 200));
    let text = nodes.text();
    assert!(text.contains("strict propagation: as the existing one on 0 jobs without loops"), "{text}");
}
