//! What the tests share.
#![allow(dead_code)]

use compare::generate::generate;
use compare::list::{read_list, Record};
use scope_deps::{limits, Job};
use std::path::PathBuf;

/// A file of the repository.
pub fn repository(file: &str) -> PathBuf {
    PathBuf::from(env!("CARGO_MANIFEST_DIR")).join("../..").join(file)
}

/// The stored list: jobs with what the Rust says of them.
pub fn stored() -> Vec<Record> {
    let bytes = std::fs::read(repository("compare/stored/jobs.bin")).unwrap();
    let records = read_list(&bytes).unwrap();
    assert!(records.len() > 300);
    records
}

/// The bytes of generated jobs of all classes, damaged ones among them.
pub fn generated(seed: u64, count: u64) -> impl Iterator<Item = Vec<u8>> {
    (0..count).map(move |number| generate(seed, number, None).job)
}

/// The bytes of generated and stored jobs.
pub fn all_bytes(seed: u64, count: u64) -> impl Iterator<Item = Vec<u8>> {
    stored().into_iter().map(|record| record.job).chain(generated(seed, count))
}

/// The well-formed ones among generated and stored jobs.
pub fn jobs(seed: u64, count: u64) -> impl Iterator<Item = Job> {
    all_bytes(seed, count).filter_map(|bytes| Job::from_bytes(&bytes).ok())
}

/// The bytes written in hexadecimal digits.
pub fn hex(text: &str) -> Vec<u8> {
    let digits: Vec<u32> = text.chars().filter_map(|c| c.to_digit(16)).collect();
    digits.chunks(2).map(|pair| (pair[0] * 16 + pair[1]) as u8).collect()
}

/// Whether the stage gives the library's buffer length as this record's.
pub fn has_usual_buffer(record: &Record) -> bool {
    record.out_len >= limits::OUT_BYTES
}
