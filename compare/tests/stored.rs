//! What the proved programs must write for their input: what the harness says of it.

use compare::list::{Record, read_list};
use compare::operation::Operation;
use std::fs;
use std::path::PathBuf;

fn bytes(file: &str) -> Vec<u8> {
    fs::read(PathBuf::from(env!("CARGO_MANIFEST_DIR")).join("../crates").join(file)).unwrap()
}

/// How many of these are written, and how many are refused by each number.
fn lines(records: &[Record], operation: Operation, written: &str, refused: &str) -> String {
    let refusal = |record: &Record| match *record.written(operation) {
        [b'R', b'F', number] => number,
        _ => 0,
    };
    let count = |number| records.iter().filter(|record| refusal(record) == number).count();
    let refusals = (1..=10).map(|number| format!("{refused} {number}: {}\n", count(number)));
    format!("{written}: {}\n{}", count(0), refusals.collect::<String>())
}

/// Program `replay` reads the stored list.
#[test]
fn the_replays_input_is_the_stored_list() {
    assert!(bytes("replay/stdin") == bytes("../compare/stored/jobs.bin"));
}

/// Program `replay` prints counts, and those due follow from the list.
#[test]
fn the_replays_counts_are_those_of_the_list() {
    let records = read_list(&bytes("replay/stdin")).unwrap();
    let kinds = ["answers", "sheets", "thin jobs", "strict answers", "strict sheets"];
    let agree = kinds.map(|kind| format!("{kind} that agree: {}\n", records.len())).concat();
    let due = [
        agree + "records that differ: 0\n",
        lines(&records, Operation::Answer, "agreed and written", "agreed on refusal"),
        lines(&records, Operation::Thin, "thin jobs written", "thin jobs refused by"),
        lines(&records, Operation::StrictAnswer, "strict answers written", "strict answers refused by"),
    ];
    assert_eq!(String::from_utf8(bytes("replay/stdout")).unwrap(), due.concat());
}

#[cfg(reference)]
#[test]
fn the_programs_of_one_job_write_what_is_due() {
    use compare::oracle::{Oracle, program_bytes};

    let mut oracle = Oracle::open().unwrap();
    for operation in Operation::ALL {
        let (stdin, stdout) = (format!("{}/stdin", operation.name()), format!("{}/stdout", operation.name()));
        let said = oracle.say(operation, &bytes(&stdin), operation.least_bytes());
        assert_eq!(program_bytes(&said), bytes(&stdout), "{}", operation.name());
    }
}
