//! The counter that is added to the round loop of `propagate_non_null`.

use std::cell::Cell;

thread_local! {
    static ROUNDS: Cell<Rounds> = const { Cell::new(Rounds::NONE) };
}

/// How many rounds ran, and whether the last one changed nothing. Nodes are `nodes.len()` of the
/// registry.
#[derive(Debug, Clone, Copy, PartialEq, Eq)]
pub struct Rounds {
    pub run: u8,
    pub settled: bool,
    /// Nodes before the second round, if there was one.
    pub nodes_before_second: Option<usize>,
    /// Nodes before the last round.
    pub nodes_before_last: usize,
    /// Nodes after the first forward walk, of which the harness's own propagation alone tells.
    pub nodes_after_forward: Option<usize>,
}

impl Rounds {
    const NONE: Self = Self {
        run: 0,
        settled: false,
        nodes_before_second: None,
        nodes_before_last: 0,
        nodes_after_forward: None,
    };
}

pub fn clear() {
    ROUNDS.set(Rounds::NONE);
}

/// Called at the start of each round.
pub fn started(nodes: usize) {
    let rounds = ROUNDS.get();
    let run = rounds.run + 1;
    let nodes_before_second = if run == 2 { Some(nodes) } else { rounds.nodes_before_second };
    ROUNDS.set(Rounds { run, nodes_before_second, nodes_before_last: nodes, ..rounds });
}

/// Called between the forward walk of a round and its backward walk.
pub fn turned(nodes: usize) {
    let rounds = ROUNDS.get();
    ROUNDS.set(Rounds { nodes_after_forward: rounds.nodes_after_forward.or(Some(nodes)), ..rounds });
}

/// Called where the loop ends because nothing changed.
pub fn settled() {
    ROUNDS.set(Rounds { settled: true, ..ROUNDS.get() });
}

pub fn read() -> Rounds {
    ROUNDS.get()
}
