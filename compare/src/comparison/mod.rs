//! Compares a stage with the Rust, job by job, in one process.

mod buffer;
pub mod fixed;
pub mod nodes;
pub mod run;

use crate::job::Job;
use crate::library::Stage;
use crate::operation::Operation;
use crate::oracle::{All, Oracle, Said};
use crate::reader::{MANY_NODES, Refusal, read_job};
use crate::reads;
use buffer::Buffer;
use nodes::Nodes;

/// What was seen of a job on which all agree.
pub struct Seen {
    /// By which number answer and sheet are refused.
    pub refusal: Option<Refusal>,
    /// Whether the thin job is shorter.
    pub has_repeats: bool,
    /// How the two propagations stand to each other, of a job that the reader accepts.
    pub propagations: Option<Propagations>,
    /// Where the nodes of such a job come from.
    pub nodes: Option<Nodes>,
    /// How many raw reads of such a job are kept, and how many are not.
    pub reads: [usize; 2],
}

/// How the existing propagation and the strict one stand to each other on a job.
#[derive(Debug, Clone, Copy)]
pub struct Propagations {
    pub has_loop: bool,
    pub differ: bool,
    /// Whether 9 refuses the job under the existing one, and under the strict one.
    pub refused: [bool; 2],
}

impl Propagations {
    /// Says why not, where the two must be equal and are not.
    fn of(job: &Job, all: &All) -> Result<Self, String> {
        let (existing, strict) = (&all.existing, &all.strict);
        let differ = (&existing.answer, &existing.sheet) != (&strict.answer, &strict.sheet);
        let has_loop = job.has_loop();
        if differ && !has_loop {
            return Err("without loops, the harness's strict answer or sheet is not the Rust's".into());
        }
        let refused = [existing, strict].map(|both| both.answer == Err(MANY_NODES));
        Ok(Self { has_loop, differ, refused })
    }
}

/// Runs the Rust and a stage on the same jobs.
pub struct Comparison<'s> {
    oracle: Oracle,
    stage: &'s mut dyn Stage,
    buffer: Buffer,
    /// How many calls there were.
    compared: usize,
}

impl<'s> Comparison<'s> {
    pub fn new(oracle: Oracle, stage: &'s mut dyn Stage) -> Self {
        Self { oracle, stage, buffer: Buffer::default(), compared: 0 }
    }

    /// Compares the operations, or says how they differ. Where the thin job is another than the
    /// job, it is compared too.
    pub fn compare(&mut self, job: &[u8], out_len: usize) -> Result<Seen, String> {
        let all = self.oracle.all(job, out_len);
        let read = read_job(job, out_len).ok();
        let propagations = read.as_ref().map(|job| Propagations::of(job, &all)).transpose()?;
        let nodes = read.as_ref().map(|job| Nodes::of(job, &all)).transpose()?;
        let reads = read.as_ref().map_or(Ok([0; 2]), |job| self.compare_reads(job))?;
        self.call_all(job, out_len, &all)?;
        let shorter = all.thin.as_ref().ok().filter(|thin| *thin != job);
        if let Some(thin) = shorter {
            if thin.len() >= job.len() {
                return Err("thin: the harness's thin job has other bytes, but not fewer".into());
            }
            self.compare_thin(thin, out_len, &all).map_err(|why| format!("of the thin job, {why}"))?;
        }
        let refusal = all.existing.answer.as_ref().err().copied();
        Ok(Seen { refusal, has_repeats: shorter.is_some(), propagations, nodes, reads })
    }

    /// Holds the Rust to the harness's own words on which raw reads are kept, and counts them.
    fn compare_reads(&mut self, job: &Job) -> Result<[usize; 2], String> {
        for read in job.blocks.iter().flat_map(|block| &block.reads) {
            let own = reads::kept(read);
            if self.oracle.keeps(read) != own {
                let (rust, harness) = if own { ("drops", "keeps") } else { ("keeps", "drops") };
                return Err(format!("the Rust {rust} a raw read that the harness {harness}: {read:?}"));
            }
        }
        Ok(reads::counted(job))
    }

    /// Compares the operations on a thin job: in the library, in the Rust and in the harness its
    /// answers and its sheets are those of the job, and it is its own thin job.
    fn compare_thin(&mut self, thin: &[u8], out_len: usize, job: &All) -> Result<(), String> {
        let due = All { thin: Ok(thin.to_vec()), ..job.clone() };
        let all = self.oracle.all(thin, out_len);
        for ((operation, due), (_, said)) in due.said().into_iter().zip(all.said()) {
            if said != due {
                return Err(format!("{} by {} is another", operation.name(), operation.judge()));
            }
        }
        self.call_all(thin, out_len, &due)
    }

    fn call_all(&mut self, job: &[u8], out_len: usize, due: &All) -> Result<(), String> {
        due.said().into_iter().try_for_each(|(operation, due)| self.call(operation, job, out_len, due))
    }

    /// Calls an operation. Compared are the returned number, the bytes written, and that
    /// no other byte of the buffer, nor one beside it, is touched.
    fn call(&mut self, operation: Operation, job: &[u8], out_len: usize, due: &Said) -> Result<(), String> {
        self.compared += 1;
        let out = self.buffer.fill(out_len, self.compared);
        let returned = self.stage.call(operation, job, out);
        let checked = self.buffer.check(due, returned, operation.judge());
        checked.map_err(|why| format!("{}: {why}", operation.name()))
    }
}

/// The number that the C interface returns.
pub fn returned_number(said: &Said) -> i64 {
    match said {
        Ok(bytes) => bytes.len() as i64,
        Err(refusal) => -i64::from(*refusal),
    }
}
