//! Raw reads: which the Rust keeps, the examples of src/examples/reads.rs, and that the comparison
//! sees each mistake with them.
#![cfg(reference)]

mod common;

use common::{answer, block, hex, job, node_text, set_text, sheet, texts, write};
use compare::comparison::run::{Generated, fixed_jobs, generated_jobs};
use compare::comparison::{Comparison, fixed};
use compare::cover::features;
use compare::examples::{example, examples};
use compare::generate::generate;
use compare::job::{Job, RawRead, limits};
use compare::library::Stage;
use compare::notation::{dropped, kept, path};
use compare::operation::Operation;
use compare::oracle::{All, Both, Oracle, Said};
use compare::prng::Prng;
use compare::propagation::Propagation::{self, Existing, Own, Strict};
use compare::read_mistakes::ReadMistake;
use compare::reader::{LARGEST_START, MANY_NODES, read_job};
use compare::reads;
use compare::start_mistakes::StartMistake;
use compare::worst;
use std::collections::BTreeMap;

fn run(propagation: Propagation, job: &Job) -> Both {
    Oracle::open().unwrap().both(propagation, &job.to_bytes(), limits::OUT_BYTES)
}

/// Block 7 reads 1 and 2 at 3, in a scope from 0 to 9: the range of the first is short, that of the
/// second is not, so 2 is dropped.
#[test]
fn the_bytes_case() {
    let job = hex("4844 0100 0200 07000000 / 424C 07000000 00 00 02 /
        5244 03000000 00000000 01000000 01 00000000 09000000 00 01000000 00 00000000 00 /
        5244 03000000 00000000 02000000 01 00000000 09000000 00 02000000 00 00000000 00 /
        4341 01000000 00 00000000 01 00 00 0A00000000000000 00000000 /
        4341 02000000 00 00000000 01 00 00 0A00000000000000 00000000");
    let due = hex("414E 0200 01 01 / 4445 01000000 00 00000000 01 00 00 0A00000000000000 00000000 /
        4445 02000000 00 00000000 00");
    let mut oracle = Oracle::open().unwrap();
    for propagation in [Existing, Strict, Own(None)] {
        assert_eq!(oracle.answer(propagation, &job, limits::OUT_BYTES), Ok(due.clone()));
    }
    assert_eq!(oracle.thin(&job, limits::THIN_BYTES), Ok(job.clone()));
    let mut refused = job;
    refused[25..29].fill(0xff);
    for (operation, said) in oracle.all(&refused, limits::THIN_BYTES).said() {
        assert_eq!(*said, Err(LARGEST_START), "{}", operation.name());
    }
}

/// Whether the one read of each example is kept; none where 10 refuses it.
const CONDITIONS: [(&str, Option<bool>); 27] = [
    ("read-mutable", Some(false)),
    ("read-known-immutable", Some(true)),
    ("read-known-immutable-without-need", Some(true)),
    ("read-of-short-range", Some(true)),
    ("read-without-scope", Some(true)),
    ("read-outside-scope", Some(true)),
    ("read-before-scope", Some(true)),
    ("read-at-scope-start", Some(false)),
    ("read-before-scope-end", Some(false)),
    ("read-at-scope-end", Some(true)),
    ("read-in-empty-scope", Some(true)),
    ("read-in-scope-that-ends-before-its-start", Some(true)),
    ("range-that-ends-before-its-start", Some(true)),
    ("range-that-ends-at-its-start", Some(true)),
    ("range-that-ends-1-after-its-start", Some(true)),
    ("range-that-ends-2-after-its-start", Some(false)),
    ("range-from-0-to-1", Some(true)),
    ("range-from-0-to-2-at-0", Some(false)),
    ("range-from-0-to-2-at-3", Some(false)),
    ("range-from-0-to-2-at-9", Some(true)),
    ("range-far-from-the-instruction", Some(false)),
    ("range-across-the-sign", Some(false)),
    ("scope-across-the-sign", Some(false)),
    ("read-at-the-largest-instruction", Some(true)),
    ("range-start-4294967293", Some(false)),
    ("range-start-4294967294", Some(true)),
    ("range-start-4294967295", None),
];

/// 1.10 is read, and 1.10.11 is the candidate: it stays whole where the read is kept.
#[test]
fn each_condition_decides() {
    let mut oracle = Oracle::open().unwrap();
    for (name, due) in CONDITIONS {
        let job = example(name);
        let read = &job.blocks[0].reads[0];
        assert_eq!(read.path, path("1.10"), "{name}");
        for propagation in [Existing, Strict, Own(None)] {
            let both = run(propagation, &job);
            let Some(is_kept) = due else {
                assert_eq!((both.answer, both.sheet), (Err(10), Err(10)), "{name}");
                continue;
            };
            assert_eq!((oracle.keeps(read), reads::kept(read)), (is_kept, is_kept), "{name}");
            let nodes = both.counts.unwrap().nodes_before;
            let returned = texts(&answer(&both.answer.unwrap()).returned);
            let due = if is_kept { (2, "1.10.11") } else { (0, "1") };
            assert_eq!((nodes, &*returned), due, "{name}");
        }
    }
}

/// The nodes in order, the scope block's set, and what is returned.
const ENTERED: [(&str, &str, &str, &str); 15] = [
    ("all-reads-dropped", "", "", "1"),
    ("some-reads-dropped", "3, 3.10, 1, 1.10", "3.10, 1.10", "1.10.11"),
    ("reads-before-assumed-paths", "3, 2, 2.10, 1", "3, 2, 2.10, 1", ""),
    ("reads-in-two-blocks", "4, 2, 1, 3, 1?.10, 1.10", "4, 2, 1, 3, 1.10", "1.10.11"),
    ("read-that-reduces", "2, 1, 1?.10, 1.10", "2, 1, 1.10", "1.10.11"),
    ("dropped-read-that-would-reduce", "2, 1, 1?.10", "2, 1?.10", "1"),
    ("read-that-propagates", "1", "1", "1.10"),
    ("read-in-a-loop", "1", "1", "1.10"),
    ("first-maker-kept", "1, 1.10", "1, 1.10", "1.10.11"),
    ("first-maker-dropped", "1, 1.10", "1, 1.10", "1.10.11"),
    ("read-of-no-entry", "1", "1", "1.10"),
    ("assumed-as-a-kept-read", "1, 1.10, 2", "1.10, 2", "1.10"),
    ("assumed-as-a-dropped-read", "1, 1.10, 2", "1.10, 2", "1.10"),
    ("equal-reads", "1, 1.10", "1.10", "1.10"),
    ("255-kept-reads", "1, 1.10", "1.10", "1.10.11"),
];

#[test]
fn kept_reads_are_entered_before_the_paths_that_are_ready() {
    for (name, nodes, set, returned) in ENTERED {
        let job = example(name);
        let both = run(Existing, &job);
        let sheet = sheet(&both.sheet.unwrap());
        let all: Vec<String> = (0..sheet.nodes.len()).map(|node| node_text(&sheet, node)).collect();
        assert_eq!((&*all.join(", "), &*set_text(&sheet, job.scope)), (nodes, set), "{name}");
        assert_eq!(texts(&answer(&both.answer.unwrap()).returned), returned, "{name}");
    }
    // Strictly, a block after itself takes nothing over.
    let strict = run(Strict, &example("read-in-a-loop"));
    assert_eq!(texts(&answer(&strict.answer.unwrap()).returned), "1");
}

/// A root has the reactive and the span of the first path that is entered.
#[test]
fn a_dropped_read_is_no_first_maker() {
    let root = |name| sheet(&run(Existing, &example(name)).sheet.unwrap()).nodes[0].clone();
    let [kept, dropped] = ["first-maker-kept", "first-maker-dropped"].map(root);
    assert_eq!((kept.reactive, kept.span), (true, 5));
    assert_eq!((dropped.reactive, dropped.span), (false, 6));
}

/// Nodes before the first round, and the refusal.
const AT_LIMITS: [(&str, Option<usize>, Option<u8>); 12] = [
    ("read-of-16-entries", Some(17), None),
    ("255-kept-reads", Some(2), None),
    ("255-dropped-reads", Some(0), None),
    ("255-reads-of-6-entries", Some(261), None),
    ("refused-by-9-for-a-kept-read", Some(513), Some(MANY_NODES)),
    ("accepted-with-a-dropped-read", Some(512), None),
    ("refused-by-9-for-reads-alone", Some(513), Some(MANY_NODES)),
    ("accepted-with-one-of-them-dropped", Some(510), None),
    ("10-in-a-later-block", None, Some(LARGEST_START)),
    ("10-before-7", None, Some(LARGEST_START)),
    ("10-before-8", None, Some(LARGEST_START)),
    ("10-before-9", None, Some(LARGEST_START)),
];

#[test]
fn limits_and_refusals() {
    for (name, nodes, refusal) in AT_LIMITS {
        for propagation in [Existing, Strict] {
            let both = run(propagation, &example(name));
            assert_eq!(both.counts.map(|counts| counts.nodes_before), nodes, "{name}");
            assert_eq!((both.answer.err(), both.sheet.err()), (refusal, refusal), "{name}");
        }
    }
    // Each of the four has what would be refused without the range start, too.
    for (name, without) in [("10-in-a-later-block", None), ("10-before-7", Some(7)), ("10-before-8", Some(8))]
    {
        assert_eq!(with_other_starts(name), without, "{name}");
    }
    assert_eq!(with_other_starts("10-before-9"), Some(9));
}

/// By which number the example is refused with the largest range start that is accepted.
fn with_other_starts(name: &str) -> Option<u8> {
    let mut job = example(name);
    for read in job.blocks.iter_mut().flat_map(|block| &mut block.reads) {
        read.range_start = read.range_start.min(limits::RANGE_START);
    }
    run(Existing, &job).answer.err()
}

#[test]
fn all_examples_of_reads_are_there() {
    let names: Vec<&str> = examples().iter().map(|example| example.name).collect();
    let first = names.iter().position(|name| *name == CONDITIONS[0].0).unwrap();
    let told: Vec<&str> = (CONDITIONS.iter().map(|(name, ..)| *name))
        .chain(ENTERED.iter().map(|(name, ..)| *name))
        .chain(THINNED.iter().map(|(name, ..)| *name))
        .chain(AT_LIMITS.iter().map(|(name, ..)| *name))
        .collect();
    assert!(names[first..].iter().all(|name| told.contains(name)), "{names:?}");
    assert!(told.iter().all(|name| names[first..].contains(name)));
}

/// What is left of the assumed paths; the candidate stands twice in each, and the reads stay.
const THINNED: [(&str, &str); 6] = [
    ("assumed-as-a-kept-read", "1.10, 2"),
    ("assumed-as-a-dropped-read", "1.10, 2"),
    ("equal-reads", ""),
    ("equal-dropped-reads", "1.10"),
    ("reads-of-one-path-kept-and-dropped", "2"),
    ("scopes-that-are-not-there", "1"),
];

#[test]
fn thin_jobs_have_the_reads_of_their_jobs() {
    let mut oracle = Oracle::open().unwrap();
    for (name, left) in THINNED {
        let whole = example(name);
        let reads = whole.blocks[0].reads.clone();
        let due = job(7, vec![block(7, &[], left).reading(reads)], "1.10").to_bytes();
        assert_eq!(oracle.thin(&whole.to_bytes(), limits::THIN_BYTES), Ok(due.clone()), "{name}");
        assert_eq!(oracle.thin(&due, limits::THIN_BYTES), Ok(due), "{name}");
    }
}

/// The numbers of the fixed jobs' names are those that every operation gives.
#[test]
fn fixed_jobs_are_refused_by_the_numbers_in_their_names() {
    let mut oracle = Oracle::open().unwrap();
    let mut met: BTreeMap<u8, usize> = BTreeMap::new();
    for fixed in fixed::list() {
        let Some(Ok(due)) = fixed.name.split_once(": ").map(|(number, _)| number.parse::<u8>()) else {
            continue;
        };
        for (operation, said) in oracle.all(&fixed.job, fixed.out_len).said() {
            // The thin writer propagates nothing.
            let due = if operation == Operation::Thin && due == MANY_NODES { 0 } else { due };
            assert_eq!(
                said.as_ref().err().copied().unwrap_or(0),
                due,
                "{}, {}",
                fixed.name,
                operation.name()
            );
        }
        *met.entry(due).or_default() += 1;
    }
    assert!(met.keys().copied().eq(0..=10), "{met:?}");
    assert!(met[&10] > 12 && met[&4] > 6, "{met:?}");
}

/// Numbers around the edges, each with each.
const NUMBERS: [u32; 9] = [0, 1, 2, 3, 4, (1 << 31) - 1, 1 << 31, u32::MAX - 1, u32::MAX];

#[test]
fn the_rusts_words_and_the_harnesss_own_agree_at_the_edges() {
    let mut oracle = Oracle::open().unwrap();
    let (mut tried, mut is_kept) = (0, 0);
    let mut compare = |read: &RawRead| {
        let own = reads::kept(read);
        assert_eq!(oracle.keeps(read), own, "{read:?}");
        (tried, is_kept) = (tried + 1, is_kept + usize::from(own));
    };
    for number in 0..NUMBERS.len().pow(5) * 4 {
        let digit = |place: u32| NUMBERS[number / 4 / NUMBERS.len().pow(place) % NUMBERS.len()];
        let [instruction, range_start, range_end, scope_start, scope_end] = [0, 1, 2, 3, 4].map(digit);
        let (has_scope, known_immutable) = (number % 2 == 1, number % 4 > 1);
        if range_start < u32::MAX {
            let numbers = RawRead { instruction, range_start, range_end, has_scope, ..kept("1") };
            compare(&RawRead { scope_start, scope_end, known_immutable, ..numbers });
        }
    }
    for number in 0..3000 {
        let generated = generate(31, number, Some("raw-reads"));
        let Ok(job) = read_job(&generated.job, generated.out_len) else { continue };
        job.blocks.iter().flat_map(|block| &block.reads).for_each(&mut compare);
    }
    assert!(tried > 200_000 && tried - is_kept > 2000, "{tried} {is_kept}");
}

/// Whatever the identifier: the environment has that one alone.
#[test]
fn what_is_kept_does_not_depend_on_the_path() {
    let mut oracle = Oracle::open().unwrap();
    for identifier in [0, 1, u32::MAX] {
        for (read, due) in [(kept("1.10"), true), (dropped("1.10"), false)] {
            let mut read = read;
            read.path.identifier = identifier;
            assert_eq!(oracle.keeps(&read), due);
            read.path.reactive ^= true;
            assert_eq!(oracle.keeps(&read), due);
        }
    }
}

/// A job without raw reads, in which the kept ones are assumed, says the same.
#[test]
fn a_kept_read_is_as_good_as_an_assumed_path() {
    let (mut oracle, mut compared) = (Oracle::open().unwrap(), 0);
    for class in [None, Some("raw-reads")] {
        for number in 0..2000 {
            let generated = generate(32, number, class);
            let Ok(job) = read_job(&generated.job, limits::OUT_BYTES) else { continue };
            let mut ready = job.clone();
            for block in &mut ready.blocks {
                block.assumed = reads::assumed(block).cloned().collect();
                block.reads.clear();
            }
            if ready.blocks.iter().any(|block| block.assumed.len() > limits::ASSUMED) {
                continue;
            }
            for propagation in [Existing, Strict] {
                let mut said = |job: &Job| {
                    let both = oracle.both(propagation, &job.to_bytes(), limits::OUT_BYTES);
                    (both.answer, both.sheet)
                };
                assert_eq!(said(&job), said(&ready), "{class:?} {number}");
            }
            compared += usize::from(job != ready);
        }
    }
    assert!(compared > 1500, "{compared}");
}

/// A stage that does something wrong with raw reads.
struct Wrong<F> {
    oracle: Oracle,
    say: F,
}

impl<F: FnMut(&mut Oracle, Operation, &[u8], usize) -> Said> Stage for Wrong<F> {
    fn call(&mut self, operation: Operation, job: &[u8], out: &mut [u8]) -> i64 {
        write(&(self.say)(&mut self.oracle, operation, job, out.len()), out)
    }
}

/// What the comparison says in the fixed list, and on generated jobs of the class.
fn seen(say: impl FnMut(&mut Oracle, Operation, &[u8], usize) -> Said) -> [Option<String>; 2] {
    let mut stage = Wrong { oracle: Oracle::open().unwrap(), say };
    let mut comparison = Comparison::new(Oracle::open().unwrap(), &mut stage);
    let fixed = fixed_jobs(&mut comparison).err();
    let asked = Generated { seed: 3, first: 0, count: 3000, time: None, class: Some("raw-reads") };
    let generated = generated_jobs(&mut comparison, &asked).err();
    [fixed, generated].map(|mismatch| mismatch.map(|mismatch| mismatch.what))
}

#[test]
fn a_stage_without_mistake_agrees() {
    assert_eq!(seen(|oracle, operation, job, out_len| oracle.say(operation, job, out_len)), [None, None]);
}

#[test]
fn each_mistake_is_seen_in_the_fixed_list_and_in_the_class() {
    for mistake in ReadMistake::ALL {
        let wrong = |oracle: &mut Oracle, operation, job: &[u8], out_len| {
            oracle.with_mistake(mistake, |oracle| oracle.say(operation, job, out_len))
        };
        for what in seen(wrong) {
            let what = what.unwrap_or_else(|| panic!("{} is not seen", mistake.text()));
            assert!(what.contains("the Rust says"), "{}: {what}", mistake.text());
        }
    }
}

#[test]
fn each_mistake_in_refusing_is_seen() {
    for mistake in StartMistake::ALL {
        let wrong = |oracle: &mut Oracle, operation, job: &[u8], out_len| {
            mistake.say(oracle, operation, job, out_len)
        };
        let [fixed, generated] = seen(wrong);
        let what = fixed.unwrap_or_else(|| panic!("{} is not seen", mistake.text()));
        assert!(what.contains(": returned "), "{}: {what}", mistake.text());
        // In the class no later field of a job that 10 refuses is wrong.
        let by_later_field = mistake == StartMistake::AfterOtherFields;
        assert!(generated.is_some() || by_later_field, "{}", mistake.text());
    }
}

/// By the sheet each mistake is told from the right way, on these examples.
const TOLD_BY: [(ReadMistake, &str); 25] = [
    (ReadMistake::RangeEndIncluded, "range-that-ends-1-after-its-start"),
    (ReadMistake::RangeLongerByOne, "range-that-ends-2-after-its-start"),
    (ReadMistake::RangeStartIgnored, "range-that-ends-at-its-start"),
    (ReadMistake::RangeIgnored, "read-of-short-range"),
    (ReadMistake::InstructionForRangeEnd, "range-far-from-the-instruction"),
    (ReadMistake::ScopeStartExcluded, "read-at-scope-start"),
    (ReadMistake::ScopeEndIncluded, "read-at-scope-end"),
    (ReadMistake::ScopeStartIgnored, "read-before-scope"),
    (ReadMistake::ScopeEndIgnored, "read-outside-scope"),
    (ReadMistake::ScopeRangeIgnored, "read-in-empty-scope"),
    (ReadMistake::ScopeAlwaysThere, "read-without-scope"),
    (ReadMistake::MutableWithoutScope, "read-without-scope"),
    (ReadMistake::InstructionInRange, "range-far-from-the-instruction"),
    (ReadMistake::RangesExchanged, "range-from-0-to-2-at-3"),
    (ReadMistake::KnownImmutableIgnored, "read-known-immutable"),
    (ReadMistake::KnownImmutableAlone, "read-of-short-range"),
    (ReadMistake::KnownImmutableToo, "read-outside-scope"),
    (ReadMistake::SignedNumbers, "range-across-the-sign"),
    (ReadMistake::DroppedEntered, "read-mutable"),
    (ReadMistake::KeptLeftOut, "read-known-immutable"),
    (ReadMistake::AssumedFirst, "reads-before-assumed-paths"),
    (ReadMistake::LastFirst, "reads-before-assumed-paths"),
    (ReadMistake::AfterAllBlocks, "reads-in-two-blocks"),
    (ReadMistake::DroppedMakeNodes, "all-reads-dropped"),
    (ReadMistake::InNoSet, "read-known-immutable"),
];

#[test]
fn each_mistake_differs_on_the_example_made_for_it() {
    let mut oracle = Oracle::open().unwrap();
    assert!(TOLD_BY.map(|(mistake, _)| mistake) == ReadMistake::ALL);
    for (mistake, name) in TOLD_BY {
        let job = example(name).to_bytes();
        for propagation in [Existing, Strict] {
            let right = oracle.sheet(propagation, &job, limits::OUT_BYTES);
            let wrong =
                oracle.with_mistake(mistake, |oracle| oracle.sheet(propagation, &job, limits::OUT_BYTES));
            assert_ne!(right, wrong, "{}, {name}", mistake.text());
        }
    }
}

/// The mistakes in deciding decide otherwise of some read, and those in entering of none.
#[test]
fn mistakes_in_deciding_keep_other_reads() {
    let mut prng = Prng::new(17, 0);
    for mistake in &ReadMistake::ALL[..20] {
        let differs = (0..20_000).any(|_| {
            let mut number = || prng.pick(&NUMBERS);
            let read =
                RawRead { instruction: number(), range_start: number(), range_end: number(), ..kept("1") };
            let read = RawRead { scope_start: number(), scope_end: number(), ..read };
            let read = RawRead { has_scope: number() > 2, known_immutable: number() > 2, ..read };
            mistake.keeps(&read) != reads::kept(&read)
        });
        assert!(differs, "{}", mistake.text());
    }
    for mistake in &ReadMistake::ALL[20..] {
        assert!([kept("1"), dropped("1")].iter().all(|read| mistake.keeps(read) == reads::kept(read)));
    }
}

/// The features of generated jobs, and how many jobs have each.
fn met(class: &str, count: u64) -> BTreeMap<String, usize> {
    let mut oracle = Oracle::open().unwrap();
    let mut met = BTreeMap::new();
    for number in 0..count {
        let generated = generate(33, number, Some(class));
        let all: All = oracle.all(&generated.job, generated.out_len);
        for feature in features(generated.class, &generated.job, generated.out_len, &all) {
            *met.entry(feature).or_default() += 1;
        }
    }
    met
}

fn beginning<'m>(met: &'m BTreeMap<String, usize>, start: &str) -> Vec<(&'m str, usize)> {
    met.iter().filter_map(|(feature, count)| Some((feature.strip_prefix(start)?, *count))).collect()
}

#[test]
fn the_class_has_what_it_promises() {
    let met = met("raw-reads", 3000);
    let reads = beginning(&met, "reads: ");
    assert!(reads.len() == 27 && reads.iter().all(|(_, count)| *count >= 20), "{}: {reads:?}", reads.len());
    let places = beginning(&met, "refusal 10 met at a raw read of ");
    assert!(places.len() == 2 && places.iter().all(|(_, count)| *count >= 20), "{places:?}");
    let before = beginning(&met, "10 comes before ");
    assert!(before.iter().map(|(number, _)| *number).eq(["6", "7", "8", "9"]), "{before:?}");
    assert!(before.iter().all(|(_, count)| *count >= 10), "{before:?}");
}

#[test]
fn damaged_jobs_meet_refusals_in_raw_reads() {
    let met = met("damaged", 6000);
    let before = beginning(&met, "10 comes before ");
    assert!(["3", "4", "5"].iter().all(|number| before.iter().any(|(met, _)| met == number)), "{before:?}");
    // A job ends in each of the 16 fields, and six of them have a range.
    let fields = [3, 5].map(|number| beginning(&met, &format!("refusal {number} met at RD field ")).len());
    assert!(fields[0] == 16 && fields[1] >= 6, "{fields:?}");
}

#[test]
fn the_longest_jobs_of_reads() {
    let longest = worst::longest_of_reads();
    assert_eq!(longest.to_bytes().len(), limits::JOB_BYTES);
    assert_eq!((longest.blocks[0].reads.len(), longest.blocks[0].reads[0].path.entries.len()), (126, 16));
    let most = worst::most_reads();
    assert_eq!((most.blocks[0].reads.len(), most.blocks[0].reads[0].path.entries.len()), (255, 6));
    // One entry more in each would not fit.
    let bytes = most.to_bytes().len();
    assert!(bytes <= limits::JOB_BYTES && bytes + 14 * limits::READS > limits::JOB_BYTES);
}
