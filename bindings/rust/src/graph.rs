//! A job's blocks as a graph. Blocks are known by their place in the job, from 0.

use crate::job::Job;
use std::collections::HashMap;

/// Predecessors and successors of each block.
pub(crate) struct Graph {
    pub(crate) predecessors: Vec<Vec<usize>>,
    pub(crate) successors: Vec<Vec<usize>>,
}

impl Graph {
    pub(crate) fn new(job: &Job) -> Self {
        let places: HashMap<_, _> = job.blocks().iter().enumerate().map(|(at, b)| (b.id(), at)).collect();
        let mut successors = vec![Vec::new(); places.len()];
        let mut predecessors = vec![Vec::new(); places.len()];
        for (block, record) in job.blocks().iter().enumerate() {
            for id in record.predecessors() {
                predecessors[block].push(places[id]);
                successors[places[id]].push(block);
            }
        }
        Self { predecessors, successors }
    }

    pub(crate) fn len(&self) -> usize {
        self.successors.len()
    }
}
