//! Lists of jobs with what the programs write for them.
//!
//! A record is an out buffer's length, then the job and what each operation writes: answer,
//! sheet, thin job, strict answer and strict sheet, each with its length before it. All
//! numbers are u32, lowest byte first.

use crate::operation::Operation;
use std::io::{self, Write};

#[derive(Debug, Clone, PartialEq, Eq)]
pub struct Record {
    pub out_len: usize,
    pub job: Vec<u8>,
    /// As program `answer` writes it: an answer, or RF and a number.
    pub answer: Vec<u8>,
    /// As program `sheet` writes it.
    pub sheet: Vec<u8>,
    /// As program `thin` writes it.
    pub thin: Vec<u8>,
    /// As program `strict_answer` writes it.
    pub strict_answer: Vec<u8>,
    /// As program `strict_sheet` writes it.
    pub strict_sheet: Vec<u8>,
}

impl Record {
    /// What the operation's program writes.
    pub fn written(&self, operation: Operation) -> &[u8] {
        match operation {
            Operation::Answer => &self.answer,
            Operation::Sheet => &self.sheet,
            Operation::Thin => &self.thin,
            Operation::StrictAnswer => &self.strict_answer,
            Operation::StrictSheet => &self.strict_sheet,
        }
    }

    fn parts(&self) -> impl Iterator<Item = &[u8]> {
        [&self.job[..]].into_iter().chain(Operation::ALL.map(|operation| self.written(operation)))
    }

    pub fn write(&self, out: &mut impl Write) -> io::Result<()> {
        out.write_all(&(self.out_len as u32).to_le_bytes())?;
        for part in self.parts() {
            out.write_all(&(part.len() as u32).to_le_bytes())?;
            out.write_all(part)?;
        }
        Ok(())
    }
}

/// All records of a list, or the number of the record that is cut off.
pub fn read_list(mut bytes: &[u8]) -> Result<Vec<Record>, String> {
    let mut records = Vec::new();
    while !bytes.is_empty() {
        let number = records.len();
        let record = read_record(&mut bytes).ok_or(format!("record {number} is cut off"))?;
        records.push(record);
    }
    Ok(records)
}

fn read_record(bytes: &mut &[u8]) -> Option<Record> {
    Some(Record {
        out_len: read_number(bytes)?,
        job: read_part(bytes)?,
        answer: read_part(bytes)?,
        sheet: read_part(bytes)?,
        thin: read_part(bytes)?,
        strict_answer: read_part(bytes)?,
        strict_sheet: read_part(bytes)?,
    })
}

fn read_part(bytes: &mut &[u8]) -> Option<Vec<u8>> {
    let length = read_number(bytes)?;
    let (part, rest) = bytes.split_at_checked(length)?;
    *bytes = rest;
    Some(part.to_vec())
}

fn read_number(bytes: &mut &[u8]) -> Option<usize> {
    let (number, rest) = bytes.split_first_chunk::<4>()?;
    *bytes = rest;
    usize::try_from(u32::from_le_bytes(*number)).ok()
}

#[cfg(test)]
mod tests {
    use super::*;

    #[test]
    fn a_list_is_read_back_and_a_cut_one_is_not() {
        let record = |n: u8| Record {
            out_len: 24_576,
            job: vec![n; 3],
            answer: vec![b'R', b'F', n],
            sheet: vec![],
            thin: vec![n],
            strict_answer: vec![n; 2],
            strict_sheet: vec![n; 4],
        };
        let records = [record(1), record(2)];
        let mut bytes = Vec::new();
        records.iter().for_each(|record| record.write(&mut bytes).unwrap());
        assert_eq!(bytes.len(), 2 * (7 * 4 + 3 + 3 + 1 + 2 + 4));
        assert_eq!(read_list(&bytes).unwrap(), records);
        assert_eq!(read_list(&bytes[..bytes.len() - 1]), Err("record 1 is cut off".into()));
        assert_eq!(read_list(&[]), Ok(vec![]));
    }
}
