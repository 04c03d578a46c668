//! What can be done wrong in refusing the largest range start.

use crate::job::Job;
use crate::operation::Operation;
use crate::oracle::{Oracle, Said};
use crate::reader::{
    EXTRA_BYTE, LARGEST_START, MANY_NODES, MISSING_BYTE, OUT_OF_RANGE, Refusal, UNKNOWN_BLOCK, largest_start,
    read_job_for,
};

/// What is done wrong where a range start is the largest number, or another number is.
#[derive(Debug, Clone, Copy, PartialEq, Eq)]
pub enum StartMistake {
    Accepted,
    OutOfRange,
    AfterOtherFields,
    AfterExtraByte,
    AfterIds,
    AfterNodes,
    WithScopeAlone,
    NotInThinJobs,
    RangeEndToo,
    InstructionToo,
    OneLess,
}

impl StartMistake {
    pub const ALL: [Self; 11] = [
        Self::Accepted,
        Self::OutOfRange,
        Self::AfterOtherFields,
        Self::AfterExtraByte,
        Self::AfterIds,
        Self::AfterNodes,
        Self::WithScopeAlone,
        Self::NotInThinJobs,
        Self::RangeEndToo,
        Self::InstructionToo,
        Self::OneLess,
    ];

    /// What is done wrong, in words.
    pub fn text(self) -> &'static str {
        match self {
            Self::Accepted => "the largest range start accepted",
            Self::OutOfRange => "the largest range start refused by 5",
            Self::AfterOtherFields => "10 found after 3, 4 and 5 of later fields",
            Self::AfterExtraByte => "10 found after 6",
            Self::AfterIds => "10 found after 7 and 8",
            Self::AfterNodes => "10 found after 9",
            Self::WithScopeAlone => "10 found only where there is a scope",
            Self::NotInThinJobs => "10 not found by the thin writer",
            Self::RangeEndToo => "the largest range end refused by 10",
            Self::InstructionToo => "the largest instruction refused by 10",
            Self::OneLess => "a range start of one less refused by 10",
        }
    }

    /// What an operation says with this mistake.
    pub fn say(self, oracle: &mut Oracle, operation: Operation, job: &[u8], out_len: usize) -> Said {
        let right = oracle.say(operation, job, out_len);
        if right != Err(LARGEST_START) {
            let read = read_job_for(job, out_len, operation.least_bytes());
            return if read.is_ok_and(|job| self.refuses(&job)) { Err(LARGEST_START) } else { right };
        }
        let last_before = match self {
            Self::OutOfRange => return Err(OUT_OF_RANGE),
            Self::AfterOtherFields => OUT_OF_RANGE,
            Self::AfterExtraByte => EXTRA_BYTE,
            Self::AfterIds => UNKNOWN_BLOCK,
            Self::AfterNodes => MANY_NODES,
            Self::WithScopeAlone if has_scope(job) => return right,
            Self::NotInThinJobs if operation != Operation::Thin => return right,
            Self::RangeEndToo | Self::InstructionToo | Self::OneLess => return right,
            _ => return oracle.say(operation, &with_smaller_starts(job), out_len),
        };
        let without = oracle.say(operation, &with_smaller_starts(job), out_len);
        let stays = |number: &Refusal| (MISSING_BYTE..=last_before).contains(number);
        if without.as_ref().is_err_and(stays) { without } else { right }
    }

    /// Whether a job that can be read is refused by 10.
    fn refuses(self, job: &Job) -> bool {
        let mut all = job.blocks.iter().flat_map(|block| &block.reads);
        match self {
            Self::RangeEndToo => all.any(|read| read.range_end == u32::MAX),
            Self::InstructionToo => all.any(|read| read.instruction == u32::MAX),
            Self::OneLess => all.any(|read| read.range_start == u32::MAX - 1),
            _ => false,
        }
    }
}

/// The job with the next smaller range starts in the place of those that 10 refuses.
pub fn with_smaller_starts(job: &[u8]) -> Vec<u8> {
    let mut job = job.to_vec();
    while let Some(place) = largest_start(&job) {
        job[place] -= 1;
    }
    job
}

/// Whether has-scope is 1 in the first record that 10 refuses.
fn has_scope(job: &[u8]) -> bool {
    let place = largest_start(job).expect("10 refuses the job");
    job.get(place + 8) == Some(&1)
}
