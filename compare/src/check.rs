//! Replays a list of jobs.

use crate::entering::entered;
use crate::job::limits;
use crate::list::Record;
use crate::operation::Operation;
use crate::oracle::{Oracle, program_bytes};
use crate::output::{Answer, Sheet, Written, read_answer, read_sheet};
use crate::reader::{MANY_NODES, Refusal, read_job};
use crate::thin;

/// Compares each record with what the Rust says now, and what the Rust has not with what the
/// harness makes with it: the thin job, the strict answer and the strict sheet.
pub fn with_rust(records: &[Record], oracle: &mut Oracle) -> Result<(), String> {
    for (number, record) in records.iter().enumerate() {
        for (operation, said) in oracle.all(&record.job, record.out_len).said() {
            same_bytes(operation, record.written(operation), &program_bytes(said))
                .map_err(|why| format!("record {number}: {why}"))?;
        }
    }
    Ok(())
}

fn same_bytes(operation: Operation, stored: &[u8], computed: &[u8]) -> Result<(), String> {
    if stored == computed {
        return Ok(());
    }
    let first = stored.iter().zip(computed).take_while(|(a, b)| a == b).count();
    let (length, new_length) = (stored.len(), computed.len());
    Err(format!(
        "what is stored of {} differs from what is computed now at byte {first} \
         (stored {length} bytes, computed {new_length})",
        operation.name()
    ))
}

/// Checks what can be checked of each record without the Rust.
pub fn without_rust(records: &[Record]) -> Result<(), String> {
    for (number, record) in records.iter().enumerate() {
        check_record(record).map_err(|why| format!("record {number}: {why}"))?;
    }
    Ok(())
}

fn check_record(record: &Record) -> Result<(), String> {
    check_both(record, &record.answer, &record.sheet)?;
    check_both(record, &record.strict_answer, &record.strict_sheet)
        .map_err(|why| format!("strict: {why}"))?;
    check_propagations(record)?;
    let thin = thin::thin(&record.job, record.out_len);
    same_bytes(Operation::Thin, &record.thin, &program_bytes(&thin))
}

/// Without loops the two propagations write the same.
fn check_propagations(record: &Record) -> Result<(), String> {
    let has_loop = read_job(&record.job, record.out_len).is_ok_and(|job| job.has_loop());
    let strict = (&record.strict_answer, &record.strict_sheet);
    if !has_loop && strict != (&record.answer, &record.sheet) {
        return Err("strict: it is another than the existing one, though there is no loop".into());
    }
    Ok(())
}

/// Checks answer and sheet by one propagation.
fn check_both(record: &Record, answer: &[u8], sheet: &[u8]) -> Result<(), String> {
    if answer.len().max(sheet.len()) > limits::OUT_BYTES {
        return Err("it would not fit into the smallest out buffer".into());
    }
    let answer = read_answer(answer).map_err(|why| format!("the answer is not well formed: {why}"))?;
    let sheet = read_sheet(sheet).map_err(|why| format!("the sheet is not well formed: {why}"))?;
    check_refusals(record, refusal_of(&answer), refusal_of(&sheet))?;
    match (&answer, &sheet) {
        (Written::Record(answer), Written::Record(sheet)) => check_together(record, answer, sheet),
        _ => Ok(()),
    }
}

fn refusal_of<T>(written: &Written<T>) -> Option<Refusal> {
    match written {
        Written::Record(_) => None,
        Written::Refused(number) => Some(*number),
    }
}

/// The reader gives the refusals from 1 to 8, and 10; 9 comes from the run.
fn check_refusals(record: &Record, answer: Option<Refusal>, sheet: Option<Refusal>) -> Result<(), String> {
    if answer != sheet {
        return Err("answer and sheet are not refused alike".into());
    }
    let read = read_job(&record.job, record.out_len).err();
    let stored = answer.filter(|&number| number != MANY_NODES);
    let name = |refusal: Option<Refusal>| refusal.map_or("none".to_string(), |number| number.to_string());
    if read != stored {
        return Err(format!("the stored refusal is {}, the reader's {}", name(stored), name(read)));
    }
    Ok(())
}

fn check_together(record: &Record, answer: &Answer, sheet: &Sheet) -> Result<(), String> {
    if (answer.rounds, answer.settled) != (sheet.rounds, sheet.settled) {
        return Err("answer and sheet differ in their rounds".into());
    }
    let job = read_job(&record.job, record.out_len).expect("it was read before");
    if !job.blocks.iter().map(|block| block.id).eq(sheet.sets.iter().map(|(id, _)| *id)) {
        return Err("the sheet's blocks are not the job's".into());
    }
    if sheet.nodes[..sheet.nodes_before] != entered(&job) {
        return Err("the sheet's nodes before the first round are not those of the assumed paths".into());
    }
    if answer.returned.len() > job.candidates.len() {
        return Err("more paths are returned than there are candidates".into());
    }
    Ok(())
}

#[cfg(test)]
mod tests {
    use super::*;
    use crate::notation::{block, job};

    fn refused(number: u8) -> Vec<u8> {
        vec![b'R', b'F', number]
    }

    /// A job of one block, which assumes 1 twice, and its thin job. Answer and sheet by the Rust
    /// are not known here, so it is taken for one that 9 refuses.
    fn record() -> Record {
        let many = || refused(MANY_NODES);
        Record {
            out_len: limits::THIN_BYTES,
            job: job(7, vec![block(7, &[], "1, 1")], "").to_bytes(),
            answer: many(),
            sheet: many(),
            thin: job(7, vec![block(7, &[], "1")], "").to_bytes(),
            strict_answer: many(),
            strict_sheet: many(),
        }
    }

    fn fails(record: Record, start: &str) {
        let why = without_rust(&[record]).unwrap_err();
        assert!(why.starts_with(&format!("record 0: {start}")), "{why}");
    }

    #[test]
    fn a_thin_job_that_is_another_is_seen_without_the_rust() {
        let short = Record { out_len: limits::OUT_BYTES, ..record() };
        assert_eq!(without_rust(&[record(), Record { thin: refused(1), ..short.clone() }]), Ok(()));
        fails(Record { thin: record().job, ..record() }, "what is stored of thin differs");
        fails(short, "what is stored of thin differs");
    }

    #[test]
    fn strict_refusals_and_their_equality_without_loops_are_checked_without_the_rust() {
        let by =
            |number| Record { strict_answer: refused(number), strict_sheet: refused(number), ..record() };
        fails(by(3), "strict: the stored refusal is 3, the reader's none");
        fails(Record { strict_sheet: by(3).strict_sheet, ..record() }, "strict: answer and sheet are not");
        let empty = Record { answer: b"AN\0\0\x01\x01".to_vec(), sheet: sheet_of_two(), ..in_a_loop(false) };
        fails(empty.clone(), "strict: it is another than the existing one");
        let in_a_loop = in_a_loop(true);
        assert_eq!(without_rust(&[Record { answer: empty.answer, sheet: empty.sheet, ..in_a_loop }]), Ok(()));
    }

    #[test]
    fn the_nodes_before_the_first_round_are_held_to_the_paths_without_the_rust() {
        let node = |identifier: u8| [b"NO\xff\xff", &[identifier, 0, 0, 0][..], &[0; 15]].concat();
        let sheet = |before: u8, identifier: u8| {
            let head = [&b"SH\x01\0\x01\0\x01\x01"[..], &[before, 0]].concat();
            let set = [b"SE\x07\0\0\0\x01", &[0; limits::NODES / 8 - 1][..]].concat();
            [head, node(identifier), set].concat()
        };
        let answer = || b"AN\0\0\x01\x01".to_vec();
        let with = |sheet: Vec<u8>| Record {
            answer: answer(),
            sheet: sheet.clone(),
            strict_answer: answer(),
            strict_sheet: sheet,
            ..record()
        };
        assert_eq!(without_rust(&[with(sheet(1, 1))]), Ok(()));
        fails(with(sheet(1, 2)), "the sheet's nodes before the first round are not those of");
        fails(with(sheet(0, 1)), "the sheet is not well formed: node 0 is a root");
        fails(with(sheet(2, 1)), "the sheet is not well formed: it has 2 nodes before");
        let strict = Record { strict_sheet: sheet(1, 2), ..with(sheet(1, 1)) };
        fails(strict, "strict: the sheet's nodes before the first round");
    }

    /// A record of two blocks without paths, the second after itself or not.
    fn in_a_loop(is_loop: bool) -> Record {
        let after: &[u32] = if is_loop { &[8] } else { &[] };
        let job = job(7, vec![block(7, &[], ""), block(8, after, "")], "").to_bytes();
        Record { thin: job.clone(), job, ..record() }
    }

    fn sheet_of_two() -> Vec<u8> {
        let set = |id: u8| [b"SE", &[id, 0, 0, 0][..], &[0; limits::NODES / 8]].concat();
        [b"SH\0\0\x02\0\x01\x01\0\0".to_vec(), set(7), set(8)].concat()
    }
}
