//! Where the nodes of the compared jobs come from.

use crate::counts::Counts;
use crate::entering::entered;
use crate::job::{Job, limits};
use crate::oracle::All;

/// The counts of a job that the reader accepts, by both propagations.
#[derive(Debug, Clone, Copy)]
pub struct Nodes {
    pub existing: Counts,
    pub strict: Counts,
}

impl Nodes {
    /// Says why not, where `nodes.len()` before the first round is not the number of the assumed
    /// paths' distinct prefixes.
    pub fn of(job: &Job, all: &All) -> Result<Self, String> {
        let due = entered(job).len();
        let [existing, strict] = [&all.existing, &all.strict].map(|both| {
            let counts = both.counts.expect("the reader accepts the job");
            let in_sheet = both.sheet.as_ref().map_or(due, |sheet| usize::from(before_in(sheet)));
            match (counts.nodes_before, in_sheet) == (due, due) {
                true => Ok(counts),
                false => Err(format!(
                    "the Rust has {} nodes before the first round and the harness writes {in_sheet}, \
                     but the assumed paths have {due} distinct prefixes",
                    counts.nodes_before
                )),
            }
        });
        Ok(Self { existing: existing?, strict: strict? })
    }
}

/// The count in a sheet's head.
fn before_in(sheet: &[u8]) -> u16 {
    u16::from_le_bytes([sheet[8], sheet[9]])
}

/// Counts over the jobs that the reader accepts, by the Rust but for the last.
#[derive(Debug, Default)]
pub struct NodesTally {
    pub jobs: usize,
    /// Nodes before the first round, and nodes that reduction made.
    pub before: usize,
    pub made: usize,
    /// Jobs in which reduction made none, one, and several.
    pub jobs_by_made: [usize; 3],
    /// Jobs in which it made none, but led from an assumed node to another that was there.
    pub replaced_alone: usize,
    /// Jobs in which it made nodes in the first round alone, in later ones alone, and in both.
    pub jobs_by_round: [usize; 3],
    pub made_in_last: usize,
    /// Jobs with 512 nodes: before the first round; at the end, with some made; and with some made
    /// in the last round.
    pub full: [usize; 3],
    /// Jobs with more than 512 nodes: before the first round, and by reduction alone.
    pub too_many: [usize; 2],
    /// Jobs in which the strict propagation made another number of nodes.
    pub differing: usize,
}

impl NodesTally {
    pub fn count(&mut self, Nodes { existing: counts, strict }: &Nodes) {
        let made = counts.made();
        self.jobs += 1;
        self.before += counts.nodes_before;
        self.made += made;
        self.jobs_by_made[made.min(2)] += 1;
        self.replaced_alone += usize::from(made == 0 && counts.replaces);
        match (counts.made_in_first(), counts.made_later()) {
            (0, 0) => {}
            (_, 0) => self.jobs_by_round[0] += 1,
            (0, _) => self.jobs_by_round[1] += 1,
            _ => self.jobs_by_round[2] += 1,
        }
        let in_last = counts.made_in_last() > 0;
        self.made_in_last += usize::from(in_last);
        let full = counts.nodes == limits::NODES;
        self.full[0] += usize::from(counts.nodes_before == limits::NODES);
        self.full[1] += usize::from(full && made > 0);
        self.full[2] += usize::from(full && in_last);
        let entered_too_many = counts.nodes_before > limits::NODES;
        self.too_many[0] += usize::from(entered_too_many);
        self.too_many[1] += usize::from(counts.nodes > limits::NODES && !entered_too_many);
        self.differing += usize::from(strict.made() != made);
    }

    pub fn text(&self) -> String {
        let Self { jobs, before, made, replaced_alone, made_in_last, differing, .. } = self;
        let [none, one, several] = self.jobs_by_made;
        let [first, later, both] = self.jobs_by_round;
        let [full_before, full, full_in_last] = self.full;
        let [entered, reduced] = self.too_many;
        format!(
            "nodes of {jobs} jobs: {before} before the first round, {made} made by reduction; none made in \
             {none} jobs (in {replaced_alone} of them a node that is there replaces one), one in {one}, \
             several in {several}\n\
             nodes made in the first round alone: {first} jobs, in later rounds alone: {later}, in both: \
             {both}, in the last round: {made_in_last}; another number made strictly: {differing}\n\
             512 nodes before the first round: {full_before} jobs, at the end with some made: {full}, with \
             some made in the last round: {full_in_last}; more before the first round: {entered}, by \
             reduction alone: {reduced}"
        )
    }
}
