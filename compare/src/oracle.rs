//! What the Rust source says of a job, and what the harness says of what the Rust has not.

use crate::counts::Counts;
use crate::job::RawRead;
use crate::operation::Operation;
use crate::propagation::Propagation;
use crate::read_mistakes::ReadMistake;
use crate::reader::Refusal;

/// Why the Rust source cannot be run, if it cannot.
pub fn absent() -> Option<&'static str> {
    Some(env!("REFERENCE_ABSENT")).filter(|why| !why.is_empty())
}

/// Bytes written, or the number of a refusal.
pub type Said = Result<Vec<u8>, Refusal>;

/// Runs jobs. The arena is kept from one job to the next.
pub struct Oracle {
    #[cfg(reference)]
    alloc: crate::arena::Allocator,
    /// What is done wrong with raw reads; nothing, unless a test asks for it.
    #[cfg(reference)]
    mistake: Option<ReadMistake>,
}

/// Both results of a job by one propagation, and the counts that they do not show.
#[derive(Debug, Clone)]
pub struct Both {
    pub answer: Said,
    pub sheet: Said,
    pub counts: Option<Counts>,
}

/// What is said of a job by all operations.
#[derive(Debug, Clone)]
pub struct All {
    pub existing: Both,
    pub strict: Both,
    pub thin: Said,
}

impl All {
    /// Each operation with what is said by it.
    pub fn said(&self) -> [(Operation, &Said); Operation::ALL.len()] {
        Operation::ALL.map(|operation| (operation, self.by(operation)))
    }

    fn by(&self, operation: Operation) -> &Said {
        match operation {
            Operation::Answer => &self.existing.answer,
            Operation::Sheet => &self.existing.sheet,
            Operation::Thin => &self.thin,
            Operation::StrictAnswer => &self.strict.answer,
            Operation::StrictSheet => &self.strict.sheet,
        }
    }
}

/// What the programs write: a refusal is RF and its number.
pub fn program_bytes(said: &Said) -> Vec<u8> {
    match said {
        Ok(bytes) => bytes.clone(),
        Err(number) => vec![b'R', b'F', *number],
    }
}

impl Oracle {
    /// What is said by an operation.
    pub fn say(&mut self, operation: Operation, bytes: &[u8], out_len: usize) -> Said {
        match operation {
            Operation::Answer => self.answer(Propagation::Existing, bytes, out_len),
            Operation::Sheet => self.sheet(Propagation::Existing, bytes, out_len),
            Operation::Thin => self.thin(bytes, out_len),
            Operation::StrictAnswer => self.answer(Propagation::Strict, bytes, out_len),
            Operation::StrictSheet => self.sheet(Propagation::Strict, bytes, out_len),
        }
    }

    pub fn all(&mut self, bytes: &[u8], out_len: usize) -> All {
        let existing = self.both(Propagation::Existing, bytes, out_len);
        let strict = self.both(Propagation::Strict, bytes, out_len);
        All { existing, strict, thin: self.thin(bytes, out_len) }
    }
}

#[cfg(not(reference))]
impl Oracle {
    /// Says why the Rust cannot be run.
    pub fn open() -> Result<Self, &'static str> {
        Err(absent().unwrap_or("the Rust source was not found"))
    }

    pub fn answer(&mut self, _: Propagation, _: &[u8], _: usize) -> Said {
        unreachable!("no oracle can be opened without the Rust source")
    }

    pub fn sheet(&mut self, _: Propagation, _: &[u8], _: usize) -> Said {
        unreachable!("no oracle can be opened without the Rust source")
    }

    pub fn both(&mut self, _: Propagation, _: &[u8], _: usize) -> Both {
        unreachable!("no oracle can be opened without the Rust source")
    }

    pub fn thin(&mut self, _: &[u8], _: usize) -> Said {
        unreachable!("no oracle can be opened without the Rust source")
    }

    pub fn keeps(&mut self, _: &RawRead) -> bool {
        unreachable!("no oracle can be opened without the Rust source")
    }

    pub fn with_mistake<T>(&mut self, _: ReadMistake, _: impl FnOnce(&mut Self) -> T) -> T {
        unreachable!("no oracle can be opened without the Rust source")
    }
}

#[cfg(reference)]
impl Oracle {
    pub fn open() -> Result<Self, &'static str> {
        Ok(Self { alloc: Default::default(), mistake: None })
    }

    pub fn answer(&mut self, propagation: Propagation, bytes: &[u8], out_len: usize) -> Said {
        let job = read_job(bytes, out_len)?;
        self.alloc.reset();
        let prepared = reference::prepare(&job, &self.alloc);
        let propagated = reference::propagate(&prepared, propagation, self.mistake, &self.alloc);
        refuse_many_nodes(&propagated)?;
        Ok(answer_bytes(prepared, &propagated, &self.alloc))
    }

    pub fn sheet(&mut self, propagation: Propagation, bytes: &[u8], out_len: usize) -> Said {
        let job = read_job(bytes, out_len)?;
        self.alloc.reset();
        let prepared = reference::prepare(&job, &self.alloc);
        let propagated = reference::propagate(&prepared, propagation, self.mistake, &self.alloc);
        refuse_many_nodes(&propagated)?;
        Ok(sheet_bytes(&job, &propagated))
    }

    /// Answer and sheet from one reading and one propagation.
    pub fn both(&mut self, propagation: Propagation, bytes: &[u8], out_len: usize) -> Both {
        let job = match read_job(bytes, out_len) {
            Ok(job) => job,
            Err(number) => return Both { answer: Err(number), sheet: Err(number), counts: None },
        };
        self.alloc.reset();
        let prepared = reference::prepare(&job, &self.alloc);
        let propagated = reference::propagate(&prepared, propagation, self.mistake, &self.alloc);
        let counts = Some(propagated.counts());
        match refuse_many_nodes(&propagated) {
            Ok(()) => Both {
                answer: Ok(answer_bytes(prepared, &propagated, &self.alloc)),
                sheet: Ok(sheet_bytes(&job, &propagated)),
                counts,
            },
            Err(number) => Both { answer: Err(number), sheet: Err(number), counts },
        }
    }

    /// The thin job by the harness's own writer, with the Rust's equality of paths.
    pub fn thin(&mut self, bytes: &[u8], out_len: usize) -> Said {
        let job = read_job_to_thin(bytes, out_len)?;
        self.alloc.reset();
        Ok(reference::thinned(&job, &self.alloc).to_bytes())
    }

    /// Whether the Rust keeps a raw read.
    pub fn keeps(&mut self, read: &RawRead) -> bool {
        self.alloc.reset();
        reference::kept(read, &self.alloc)
    }

    /// What comes of it where this is done wrong with raw reads.
    pub fn with_mistake<T>(&mut self, mistake: ReadMistake, run: impl FnOnce(&mut Self) -> T) -> T {
        self.mistake = Some(mistake);
        let came = run(self);
        self.mistake = None;
        came
    }
}

#[cfg(reference)]
use crate::{
    arena::Allocator,
    job::{Job, limits},
    reader::{MANY_NODES, read_job},
    reference::{self, Prepared, Propagated},
    thin::read_job_to_thin,
};

#[cfg(reference)]
fn refuse_many_nodes(propagated: &Propagated) -> Result<(), Refusal> {
    if propagated.nodes() > limits::NODES { Err(MANY_NODES) } else { Ok(()) }
}

#[cfg(reference)]
fn answer_bytes<'a>(prepared: Prepared<'a>, propagated: &Propagated<'a>, alloc: &'a Allocator) -> Vec<u8> {
    let mut out = Vec::with_capacity(limits::OUT_BYTES);
    reference::put_answer(&mut out, &reference::derive(prepared, propagated, alloc), propagated);
    out
}

#[cfg(reference)]
fn sheet_bytes(job: &Job, propagated: &Propagated) -> Vec<u8> {
    let mut out = Vec::with_capacity(limits::OUT_BYTES);
    reference::put_sheet(&mut out, job, propagated);
    out
}
