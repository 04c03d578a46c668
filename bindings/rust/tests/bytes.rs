//! Bytes of jobs: what the reader of this crate makes of them beside the stage.

mod common;

use common::{all_bytes, has_usual_buffer, hex, jobs, stored};
use scope_deps::{
    limits, raw, Answer, BlockId, Job, ManyNodes, Place, RawCount, ReadScope, Record, Refusal, Sheet,
};

const EXAMPLE: &str = "4844 0100 0100 07000000 / 424C 07000000 00 01 00 / 5041 01000000 01 00000000 00 /
    4341 01000000 01 05000000 01 00 00 0A00000000000000 06000000";

#[test]
fn the_specifications_job_and_its_answer() {
    let job = Job::from_bytes(&hex(EXAMPLE)).unwrap();
    assert_eq!(job.to_string(), "scope 7\nblock 7\n  assumes reactive 1\ncandidate reactive 1@5.10@6\n");
    assert_eq!(job.to_bytes(), hex(EXAMPLE));
    let answer = raw::answer(&hex(EXAMPLE)).unwrap();
    assert_eq!(answer, hex("414E 0100 01 01 / 4445 01000000 01 06000000 01 00 00 0A00000000000000 06000000"));
    let answer = Answer::from_bytes(&answer).unwrap();
    assert_eq!(answer.to_string(), "rounds 1, settled\nreturned reactive 1@6.10@6\n");
    let sheet = Sheet::from_bytes(&raw::sheet(&hex(EXAMPLE)).unwrap()).unwrap();
    let shown = "rounds 1, settled\nnodes 1: 1 before the first round, 0 added by reduction\n\
                 node 0 reactive 1\nblock 7 holds 1\n";
    assert_eq!(sheet.to_string(), shown);
}

#[test]
fn a_job_that_is_read_is_written_back_and_refused_at_most_by_9() {
    let mut read = 0;
    for bytes in all_bytes(1, 12_000) {
        let Ok(job) = Job::from_bytes(&bytes) else { continue };
        read += 1;
        assert_eq!(job.to_bytes(), bytes);
        match (scope_deps::answer(&job), scope_deps::sheet(&job)) {
            (Err(answer), Err(sheet)) => assert_eq!([answer, sheet], [ManyNodes; 2]),
            (answer, sheet) => assert_eq!(answer.unwrap().rounds(), sheet.unwrap().rounds()),
        }
    }
    assert!(read > 6_000, "{read}");
}

#[test]
fn the_reader_refuses_by_the_stages_number() {
    let mut of_number = [0; 11];
    for bytes in all_bytes(2, 20_000) {
        let own = Job::from_bytes(&bytes).err();
        match raw::answer(&bytes) {
            Ok(_) | Err(Refusal::ManyNodes) => assert_eq!(own, None),
            Err(refusal) => {
                assert_eq!(own, Some(refusal), "{bytes:x?}");
                of_number[usize::from(refusal.number())] += 1;
            }
        }
    }
    let numbers = (2..=8).chain([10]);
    assert!(numbers.into_iter().all(|number| of_number[number] >= 20), "{of_number:?}");
}

#[test]
fn every_prefix_and_every_changed_byte_is_refused_alike() {
    let good = "scope 3 block 0 assumes 1@2?.10
        block 3 after 0 reads 2.10 at 3 range 0 to 2 scope 1 to 9 assumes reactive 1 candidate 1.10[0]";
    let good = good.parse::<Job>().unwrap().to_bytes();
    let prefixes = (0..good.len()).map(|length| good[..length].to_vec());
    let changed = (0..good.len()).flat_map(|at| {
        let good = good.clone();
        [0, 1, 2, 3, 17, 65, 129, 255].map(|value| {
            let mut bytes = good.clone();
            bytes[at] = value;
            bytes
        })
    });
    for bytes in prefixes.chain(changed).chain([[&good[..], &[0]].concat()]) {
        let own = Job::from_bytes(&bytes).map(|_| ()).map_err(|refusal| refusal.number());
        let stage = raw::sheet(&bytes).map(|_| ()).map_err(|refusal| refusal.number());
        assert_eq!(own, stage, "{bytes:x?}");
    }
}

#[test]
fn the_stored_answers_and_sheets_are_read() {
    let mut read = [0, 0];
    for record in stored().iter().filter(|record| has_usual_buffer(record)) {
        let Ok(job) = Job::from_bytes(&record.job) else { continue };
        if let (Ok(answer), Ok(sheet)) = (scope_deps::answer(&job), scope_deps::sheet(&job)) {
            read[0] += 1;
            assert_eq!(Answer::from_bytes(&record.answer).unwrap(), answer);
            assert_eq!(Sheet::from_bytes(&record.sheet).unwrap(), sheet);
        }
        if let (Ok(answer), Ok(sheet)) = (scope_deps::strict_answer(&job), scope_deps::strict_sheet(&job)) {
            read[1] += 1;
            assert_eq!(Answer::from_bytes(&record.strict_answer).unwrap(), answer);
            assert_eq!(Sheet::from_bytes(&record.strict_sheet).unwrap(), sheet);
        }
    }
    assert!(read.iter().all(|&read| read > 100), "{read:?}");
}

#[test]
fn a_damaged_answer_or_sheet_is_not_read() {
    let answer = raw::answer(&hex(EXAMPLE)).unwrap();
    let sheet = raw::sheet(&hex(EXAMPLE)).unwrap();
    for length in 0..answer.len() {
        assert!(Answer::from_bytes(&answer[..length]).is_err());
    }
    for length in 0..sheet.len() {
        assert!(Sheet::from_bytes(&sheet[..length]).is_err());
    }
    let message = |bytes: &[u8]| Answer::from_bytes(bytes).unwrap_err().to_string();
    assert_eq!(message(b"XX"), "another mark stands at byte 0: the mark AN is due");
    assert_eq!(message(&[&answer[..], &[0]].concat()), "byte 32 follows the last record");
    let at = |bytes: &[u8]| Sheet::from_bytes(bytes).unwrap_err().byte();
    let own_parent = [&sheet[..12], &[0, 0], &sheet[14..]].concat();
    assert_eq!(at(&own_parent), 10);
    let unknown_node = [&sheet[..39], &[2], &sheet[40..]].concat();
    assert_eq!(at(&unknown_node), 39);
}

#[test]
fn a_refusal_names_its_byte_and_its_record() {
    let refused = |text: &str| raw::answer(&hex(text)).unwrap_err();
    let told = |text: &str| {
        let refusal = refused(text);
        let place = refusal.place().unwrap();
        (refusal.number(), place.byte, place.record)
    };
    assert_eq!(told(""), (3, 0, Record::Header));
    assert_eq!(told("4844 0100 0100 07"), (3, 6, Record::Header));
    assert_eq!(told("4844 0100 0000 07000000 424D"), (4, 10, Record::Block(0)));
    let block = "4844 0100 0100 07000000 424C 07000000 00 01 00";
    let assumed = Record::Assumed { block: 0, path: 0 };
    assert_eq!(told(&format!("{block} 5041 01000000 02")), (5, 25, assumed));
    let path = format!("{block} 5041 01000000 01 00000000 00");
    assert_eq!(told(&format!("{path} 5041")), (4, 31, Record::Candidate(0)));
    assert_eq!(told(&format!("{path} 4341 01000000 01 05000000 00 00")), (6, 43, Record::End));
    let header = "4844 0200 0000 07000000";
    let twice = format!("{header} 424C 07000000 00 00 00 424C 07000000 00 00 00");
    assert_eq!(told(&twice), (7, 21, Record::Block(1)));
    let unknown = format!("{header} 424C 07000000 00 00 00 424C 08000000 02 00 00 07000000 09000000");
    assert_eq!(told(&unknown), (8, 32, Record::Block(1)));
    let scope = "4844 0100 0000 09000000 424C 07000000 00 00 00";
    assert_eq!(told(scope), (8, 6, Record::Header));
}

/// A block with one raw read of variable 1 and no path, and no candidate: from the header to the
/// instruction, and from the range's end on.
const READ: [&str; 2] = [
    "4844 0100 0000 07000000 424C 07000000 00 00 01 5244 03000000",
    "02000000 01 05000000 09000000 00 / 01000000 01 08000000 01 01 00 0A00000000000000 06000000",
];

fn reading(start: &str) -> Vec<u8> {
    hex(&READ.join(start))
}

#[test]
fn a_raw_read_is_read_field_by_field() {
    let job = Job::from_bytes(&reading("01000000")).unwrap();
    assert_eq!(
        job.to_string(),
        "scope 7\nblock 7\n  reads reactive 1@8?.10@6 at 3 range 1 to 2 scope 5 to 9\n"
    );
    assert_eq!(job.to_bytes(), reading("01000000"));
    let [read] = job.blocks()[0].raw_reads() else { panic!("{job}") };
    assert_eq!((read.instruction, read.range_start, read.range_end), (3, 1, 2));
    assert_eq!(read.scope, ReadScope::Some { start: 5, end: 9 });
    assert!(!read.known_immutable && read.is_kept());
    let mut other = reading("01000000");
    (other[33], other[42]) = (0, 1);
    let job = Job::from_bytes(&other).unwrap();
    assert!(job.to_string().contains(" at 3 range 1 to 2 no scope 5 to 9 immutable\n"), "{job}");
    assert_eq!(job.to_bytes(), other);
}

#[test]
fn the_largest_range_start_is_refused_where_it_stands() {
    let own = |bytes: &[u8]| Job::from_bytes(bytes).unwrap_err();
    let largest = reading("FFFFFFFF");
    let record = Record::RawRead { block: 0, read: 0 };
    let refusal = own(&largest);
    let raw_count = Some(RawCount { block: BlockId(7), count: 1, byte: 18 });
    let field = "the range's start (0 to 4294967294)";
    let place = Place { byte: 25, record, field, found: None, raw_count };
    assert_eq!((refusal, refusal.number()), (Refusal::LargestStart(Some(place)), 10));
    assert_eq!(
        refusal.to_string(),
        "refusal 10, LargestStart: a range start is 4,294,967,295, where start + 1 would not fit; \
         at byte 25, in RD record 1 of BL record 1: the range's start (0 to 4294967294); \
         block 7 says that it has 1 raw read (byte 18)"
    );
    assert!(Job::from_bytes(&reading("FEFFFFFF")).is_ok());
    // An earlier field comes first, a later one does not, and the field's own bytes come before.
    let with = |at: usize, byte| {
        let mut bytes = largest.clone();
        bytes[at] = byte;
        bytes
    };
    assert_eq!(own(&with(19, b'X')).number(), 4);
    assert_eq!(own(&with(33, 2)).number(), 10);
    assert_eq!([28, 29].map(|length| own(&largest[..length]).number()), [3, 10]);
    assert_eq!(own(&[&largest[..], &[0]].concat()).number(), 10);
    assert_eq!(own(&with(6, 9)).number(), 10, "an unknown scope block");
    for bytes in [&largest[..], &largest[..28], &largest[..29], &with(19, b'X'), &with(33, 2), &with(6, 9)] {
        let stage = [raw::answer, raw::sheet, raw::strict_answer, raw::strict_sheet, raw::thin];
        stage.iter().for_each(|operation| assert_eq!(operation(bytes), Err(own(bytes)), "{bytes:x?}"));
    }
}

#[test]
fn a_raw_read_has_its_marks_and_flags() {
    let told = |at: usize, byte| {
        let mut bytes = reading("01000000");
        bytes[at] = byte;
        let refusal = Job::from_bytes(&bytes).unwrap_err();
        (refusal.number(), refusal.place().unwrap().byte, refusal.place().unwrap().record)
    };
    let read = Record::RawRead { block: 0, read: 0 };
    assert_eq!(told(19, b'P'), (4, 19, read));
    assert_eq!(told(33, 2), (5, 33, read));
    assert_eq!(told(42, 2), (5, 42, read));
    assert_eq!(told(47, 2), (5, 47, read), "reactive");
    assert_eq!(told(52, 17), (5, 52, read), "how many entries");
    // One read fewer, or an assumed path in its place: the next record is of another kind.
    assert_eq!(told(18, 0), (6, 19, Record::End));
    assert_eq!(told(18, 2), (3, 67, Record::RawRead { block: 0, read: 1 }));
    let mut exchanged = reading("01000000");
    (exchanged[17], exchanged[18]) = (1, 0);
    assert_eq!(Job::from_bytes(&exchanged).unwrap_err().number(), 4);
}

#[test]
fn every_refusal_says_its_number_and_meaning() {
    for number in 1..=10 {
        let refusal = Refusal::from_number(number).unwrap();
        assert_eq!(refusal.number(), number);
        assert!(refusal.to_string().starts_with(&format!("refusal {number}, ")));
    }
    assert_eq!(Refusal::from_number(0), None);
    assert_eq!(Refusal::from_number(11), None);
    assert_eq!(raw::answer_into(&hex(EXAMPLE), &mut [0; 100]), Err(Refusal::ShortBuffer));
    assert_eq!(raw::answer(&vec![0; limits::JOB_BYTES + 1]), Err(Refusal::LongJob));
}

#[test]
fn a_refusal_leaves_the_buffer_untouched() {
    let mut out = vec![7; limits::OUT_BYTES];
    assert!(raw::sheet_into(b"HD", &mut out).is_err());
    assert!(out.iter().all(|&byte| byte == 7));
    let length = raw::answer_into(&hex(EXAMPLE), &mut out).unwrap();
    assert!(out[length..].iter().all(|&byte| byte == 7));
}

#[test]
fn a_set_counts_its_nodes() {
    let mut seen = 0;
    for job in jobs(3, 500) {
        let Ok(sheet) = scope_deps::sheet(&job) else { continue };
        for (id, set) in sheet.sets() {
            assert_eq!(set.len(), sheet.paths(id).count());
            assert_eq!(set.is_empty(), set.iter().next().is_none());
            seen += set.len();
        }
    }
    assert!(seen > 1000, "{seen}");
}

/// Bytes of before blocks had a count of raw reads, and others that go wrong among raw reads.
#[test]
fn within_raw_reads_the_count_of_the_block_is_told_and_what_was_found() {
    let said = |bytes: &[u8]| {
        Job::from_bytes(bytes).unwrap_err().to_string().split_once("; ").unwrap().1.to_string()
    };
    let old = hex("4844 0100 0100 07000000 / 424C 07000000 00 01 / 5041 01000000 01 00000000 00 /
        4341 01000000 01 05000000 01 00 00 0A00000000000000 06000000");
    assert_eq!(
        said(&old),
        "at byte 19, in RD record 1 of BL record 1: the mark RD, found 41 01; \
         block 7 says that it has 80 raw reads (byte 18)"
    );
    let mut flag = reading("01000000");
    flag[33] = 2;
    let count = "block 7 says that it has 1 raw read (byte 18)";
    assert_eq!(
        said(&flag),
        format!("at byte 33, in RD record 1 of BL record 1: has-scope (0 or 1), found 2; {count}")
    );
    assert_eq!(
        said(&reading("01000000")[..30]),
        format!("at byte 29, in RD record 1 of BL record 1: the range's end; {count}")
    );
    let ids = hex("4844 0100 0000 07000000 / 424C 07000000 01 00 03 / 0700");
    assert_eq!(
        said(&ids),
        "at byte 19, in BL record 1: a predecessor's id; block 7 says that it has 3 raw reads (byte 18)"
    );
    let mark = hex("4844 0100 0000 07000000 / 424D 07000000 00 00 00");
    assert_eq!(said(&mark), "at byte 10, in BL record 1: the mark BL, found 42 4D");
}
