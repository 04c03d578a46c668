//! Jobs written shortly, and what comes back.
#![allow(dead_code, unused_imports)]

pub use compare::notation::{block, job, path, text};

use compare::comparison::returned_number;
use compare::job::Path;
use compare::oracle::Said;
use compare::output::{Answer, Sheet, Written, read_answer, read_sheet};

pub fn texts(paths: &[Path]) -> String {
    paths.iter().map(text).collect::<Vec<_>>().join(", ")
}

/// Bytes from hex, with white space and slashes left out.
pub fn hex(text: &str) -> Vec<u8> {
    let digits: Vec<u32> = text.chars().filter_map(|c| c.to_digit(16)).collect();
    digits.chunks(2).map(|pair| (pair[0] * 16 + pair[1]) as u8).collect()
}

/// Writes what is said to a buffer, as the C interface does.
pub fn write(said: &Said, out: &mut [u8]) -> i64 {
    let bytes = said.as_deref().unwrap_or_default();
    out[..bytes.len()].copy_from_slice(bytes);
    returned_number(said)
}

pub fn answer(bytes: &[u8]) -> Answer {
    match read_answer(bytes).unwrap() {
        Written::Record(answer) => answer,
        Written::Refused(number) => panic!("refused by {number}"),
    }
}

pub fn sheet(bytes: &[u8]) -> Sheet {
    match read_sheet(bytes).unwrap() {
        Written::Record(sheet) => sheet,
        Written::Refused(number) => panic!("refused by {number}"),
    }
}

/// The path of a node, written shortly.
pub fn node_text(sheet: &Sheet, number: usize) -> String {
    text(&sheet.path(number))
}

/// The sets of all blocks, in job order.
pub fn sets(sheet: &Sheet) -> Vec<String> {
    sheet.sets.iter().map(|(id, _)| set_text(sheet, *id)).collect()
}

/// The set of a block, in the order of node numbers.
pub fn set_text(sheet: &Sheet, block: u32) -> String {
    let (_, set) = sheet.sets.iter().find(|(id, _)| *id == block).unwrap();
    set.iter().map(|&node| node_text(sheet, node)).collect::<Vec<_>>().join(", ")
}
