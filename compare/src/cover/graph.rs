//! The blocks, their edges and the orders that matter.

use super::{Features, add};
use crate::job::Job;
use crate::oracle::{Oracle, Said};
use crate::output::{Written, read_sheet};
use crate::propagation::Propagation;
use crate::reader::read_job;

pub fn graph_features(job: &Job, found: &mut Features) {
    let count = job.blocks.len();
    found.insert(match count {
        1..=8 | 63..=64 | 127..=128 => format!("blocks {count}"),
        _ => format!("blocks 2^{}", count.ilog2()),
    });
    let longest = job.blocks.iter().map(|block| block.predecessors.len()).max().unwrap_or(0);
    add(found, &format!("predecessors {longest}"), !(5..=62).contains(&longest));
    let most = job.blocks.iter().map(|block| block.assumed.len()).max().unwrap_or(0);
    add(found, "255 assumed paths", most == 255);
    add(found, "self loop", job.blocks.iter().any(|block| block.predecessors.contains(&block.id)));
    add(found, "loop: Active neighbours", job.has_loop());
    let ascending = job.blocks.is_sorted_by_key(|block| block.id);
    add(found, "job order differs from id order", !ascending);
    add(found, "scope block is not the first", job.blocks[0].id != job.scope);
    for extreme in [0, u32::MAX] {
        add(found, &format!("block id {extreme}"), job.blocks.iter().any(|block| block.id == extreme));
    }
    add(found, "predecessors out of id order", {
        job.blocks.iter().any(|block| !block.predecessors.is_sorted())
    });
}

/// Orders that decide the sets: each variant keeps the graph and changes an order.
pub fn order_features(bytes: &[u8], out_len: usize, sheet: &Said, oracle: &mut Oracle, found: &mut Features) {
    let (Ok(job), Ok(sheet)) = (read_job(bytes, out_len), sheet) else { return };
    if !job.has_loop() {
        return;
    }
    let mut matters = |what: &str, variant: Job| {
        let changed = oracle.sheet(Propagation::Existing, &variant.to_bytes(), out_len);
        add(found, what, changed.is_ok_and(|changed| sets(&changed) != sets(sheet)));
    };
    let with_predecessors = |change: fn(&mut [u32])| {
        let mut variant = job.clone();
        variant.blocks.iter_mut().for_each(|block| change(&mut block.predecessors));
        variant
    };
    matters("predecessors in reverse would differ", with_predecessors(|ids| ids.reverse()));
    matters("predecessors by id would differ", with_predecessors(|ids| ids.sort()));
    matters("ids in reverse would differ", with_ids_reversed(&job));
}

/// The sets of a sheet in job order, without the blocks' ids.
fn sets(bytes: &[u8]) -> Vec<Vec<usize>> {
    match read_sheet(bytes) {
        Ok(Written::Record(sheet)) => sheet.sets.into_iter().map(|(_, set)| set).collect(),
        _ => vec![],
    }
}

/// The same graph and job order, with ids that ascend where they descended.
fn with_ids_reversed(job: &Job) -> Job {
    let mut variant = job.clone();
    for block in &mut variant.blocks {
        block.id = !block.id;
        block.predecessors.iter_mut().for_each(|id| *id = !*id);
    }
    variant.scope = !variant.scope;
    variant
}
