//! `nodes`: how many nodes a job has before the first round and at the end.

use super::failure::{Failure, failed};
use super::one_job::read;
use super::open;
use super::output::say;
use compare::counts::Counts;
use compare::job::limits;
use compare::oracle::Both;
use compare::propagation::Propagation;

pub fn run() -> Result<(), Failure> {
    let mut oracle = open("the Rust")?;
    let job = read()?;
    for (name, propagation) in [("existing", Propagation::Existing), ("strict", Propagation::Strict)] {
        match oracle.both(propagation, &job, limits::OUT_BYTES) {
            Both { counts: Some(counts), answer, .. } => {
                let refused = answer.err().map_or(String::new(), |number| format!("; refused by {number}"));
                say!("{name} propagation: {}{refused}", text(&counts))?;
            }
            // The reader refuses the job, whatever the propagation.
            Both { answer, .. } => {
                return Err(failed(format!(
                    "the job is refused by {}, so no path of it has a node; a job as text goes through \
                     `bin/scope-deps encode` first",
                    answer.err().unwrap_or(0)
                )));
            }
        }
    }
    Ok(())
}

fn text(counts: &Counts) -> String {
    let (before, end) = (counts.nodes_before, counts.nodes);
    let made = match (counts.made(), counts.made_in_first()) {
        (0, _) => "0".to_string(),
        (made, first) => format!("{made}, {first} of them in the first round"),
    };
    format!("nodes.len() is {before} before the first round and {end} at the end; reduction made {made}")
}
