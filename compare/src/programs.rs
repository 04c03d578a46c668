//! The programs, run as processes of their own on one input after the other.

use crate::generate::edges;
use crate::job::limits;
use crate::list::Record;
use crate::operation::Operation;
use crate::oracle::{Oracle, program_bytes};
use crate::prng::Prng;
use crate::reader::read_job;
use crate::thin;
use std::io::{ErrorKind, Write};
use std::path::Path;
use std::process::{Child, Command, Stdio};
use std::thread;

/// Both sides of the longest job, and of what a program reads at most.
pub const SIZES: [usize; 7] = [0, 1, 32_768, 32_769, 65_536, 65_537, 70_000];

/// What is put on a program's standard input, and what each program is to write for it.
pub struct Input {
    pub name: String,
    pub job: Vec<u8>,
    pub due: Due,
}

/// In the order of the operations; `None` where only the Rust could say it, and is absent.
pub type Due = [Option<Vec<u8>>; Operation::ALL.len()];

/// All inputs: the stored list, and those of the sizes.
pub fn inputs(records: &[Record], mut oracle: Option<&mut Oracle>) -> Vec<Input> {
    let stored = records
        .iter()
        .enumerate()
        .map(|(number, record)| (format!("stored job {number}"), record.job.clone(), Some(record)));
    let of_sizes = SIZES.into_iter().flat_map(of_size).map(|(name, job)| (name, job, None));
    let input = |(name, job, record): (String, Vec<u8>, Option<&Record>)| {
        let due = Operation::ALL.map(|operation| match &mut oracle {
            Some(oracle) => Some(program_bytes(&oracle.say(operation, &job, operation.least_bytes()))),
            None => known(operation, &job, record),
        });
        Input { name, job, due }
    };
    stored.chain(of_sizes).map(input).collect()
}

/// What is known without the Rust: the thin job, and else the reader's refusal or what is stored.
fn known(operation: Operation, job: &[u8], record: Option<&Record>) -> Option<Vec<u8>> {
    if operation == Operation::Thin {
        return Some(program_bytes(&thin::thin(job, limits::THIN_BYTES)));
    }
    match read_job(job, limits::OUT_BYTES) {
        Err(refusal) => Some(program_bytes(&Err(refusal))),
        // The buffer must have been as long as a program's.
        Ok(_) => record
            .filter(|record| record.out_len >= limits::OUT_BYTES)
            .map(|record| record.written(operation).to_vec()),
    }
}

/// Inputs of exactly this many bytes, with their names: no job, a good one, and damaged ones.
fn of_size(size: usize) -> Vec<(String, Vec<u8>)> {
    let mut prng = Prng::new(size as u64, 0);
    let random: Vec<u8> = (0..size).map(|_| prng.below(256) as u8).collect();
    let mut inputs = vec![("zeros", vec![0; size]), ("random bytes", random.clone())];
    if let Some(rest) = size.checked_sub(2) {
        inputs.push(("random bytes behind a mark", [b"HD", &random[..rest]].concat()));
        let good = edges::of_size(size, || 1);
        let mut left_over = edges::of_size(limits::JOB_BYTES / 2, || 1);
        left_over.resize(size, 0);
        let mut damaged = good.clone();
        damaged[size - 1] ^= 0x80;
        damaged[prng.below(size)] ^= 0x41;
        inputs.extend([
            ("a job", good),
            ("a job with bytes after it", left_over),
            ("a damaged job", damaged),
        ]);
    }
    inputs.into_iter().map(|(what, job)| (format!("{what}, {size} bytes"), job)).collect()
}

/// Runs the program on the input, and says how what it wrote differs from what is due.
pub fn compare(program: &Path, input: &[u8], due: &[u8]) -> Result<(), String> {
    let wrote = run(program, input)?;
    if wrote == due {
        return Ok(());
    }
    let same = wrote.iter().zip(due).take_while(|(a, b)| a == b).count();
    let start = |bytes: &[u8]| format!("{} bytes, {:02x?} at byte {same}", bytes.len(), bytes.get(same));
    Err(format!("wrote {}, due are {}", start(&wrote), start(due)))
}

/// What the program writes.
fn run(program: &Path, input: &[u8]) -> Result<Vec<u8>, String> {
    let mut child = Command::new(program)
        .stdin(Stdio::piped())
        .stdout(Stdio::piped())
        .stderr(Stdio::piped())
        .spawn()
        .map_err(|why| format!("cannot be run: {why}"))?;
    let mut stdin = child.stdin.take().expect("it is piped");
    let output = thread::scope(|scope| {
        let writing = scope.spawn(move || stdin.write_all(input));
        let output = finished(child);
        match writing.join().expect("writing does not panic") {
            // A program need not read more than it can use.
            Err(why) if why.kind() != ErrorKind::BrokenPipe => Err(format!("cannot be written to: {why}")),
            _ => output,
        }
    })?;
    Ok(output)
}

/// What the program wrote, if it ended well.
fn finished(child: Child) -> Result<Vec<u8>, String> {
    let output = child.wait_with_output().map_err(|why| format!("cannot be read from: {why}"))?;
    let said = String::from_utf8_lossy(&output.stderr);
    if output.status.success() && said.is_empty() {
        Ok(output.stdout)
    } else {
        Err(format!("ended with {}, and said `{said}`", output.status))
    }
}
