//! Jobs to try.

use super::failure::Failure;

/// The jobs of the repository's `examples`, by name, each with what it shows.
const EXAMPLES: [(&str, &str, &str); 7] = [
    (
        "no-last-session",
        "a path is cut before what would throw for an athlete with no last session",
        include_str!("jobs/no-last-session.job"),
    ),
    ("optional-chain", "known bases make `?.` plain", include_str!("jobs/optional-chain.job")),
    ("added-nodes", "which nodes reduction adds for an optional chain", include_str!("jobs/added-nodes.job")),
    (
        "diamond",
        "what both branches assume is known after them, and what one assumes is not",
        include_str!("jobs/diamond.job"),
    ),
    (
        "loop",
        "a block of a loop holds a path that a run avoids, but not with `--strict`",
        include_str!("jobs/loop.job"),
    ),
    (
        "raw-reads",
        "a read is kept where its variable can no longer change, and left out where it can",
        include_str!("jobs/raw-reads.job"),
    ),
    ("repeats", "a thin job has each path of a list once", include_str!("jobs/repeats.job")),
];

/// The example of this name as text, or the list of all.
pub fn text(name: Option<&str>) -> Result<String, Failure> {
    let Some(name) = name else {
        let line = |(name, shows, _): &(&str, &str, &str)| format!("{name:<17}{shows}\n");
        return Ok(EXAMPLES.iter().map(line).collect());
    };
    let known = EXAMPLES.iter().find(|(example, ..)| *example == name);
    known.map(|(.., job)| job.to_string()).ok_or_else(|| Failure::Misused(format!("`{name}` is no example")))
}
