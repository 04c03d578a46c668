//! When a path came to a block, by the trace.

use crate::ids::NodeId;
use crate::replay::{Replay, Visit};
use std::collections::HashMap;

/// A moment of the trace. `None` is the start, when each block has what it assumes. In a visit, the
/// number of which stands first, place 0 is the join and place n the n-th replacement after it.
pub(super) type Moment = Option<(usize, usize)>;

/// After the whole trace.
pub(super) const END: Moment = Some((usize::MAX, 0));

/// The moments at which each node came to each block, ascending.
pub(super) struct Arrivals(HashMap<(usize, NodeId), Vec<Moment>>);

impl Arrivals {
    pub(super) fn new(replay: &Replay, blocks: usize) -> Self {
        let there = vec![vec![false; replay.nodes().len()]; blocks];
        let mut noting = Noting { there, found: HashMap::new() };
        (0..blocks).for_each(|block| noting.start(block, replay.assumed(block)));
        replay.visits().iter().enumerate().for_each(|(number, visit)| noting.visit(number, visit));
        Self(noting.found)
    }

    /// The last moment, before the one that is given, at which the node came to the block.
    pub(super) fn last_before(&self, block: usize, node: NodeId, before: Moment) -> Moment {
        let moments = self.0.get(&(block, node)).map_or(&[][..], |moments| moments);
        let earlier = moments.partition_point(|&moment| moment < before);
        moments[..earlier].last().copied().expect("what a block has came to it")
    }
}

/// Goes through the trace, with what each block has at each moment.
struct Noting {
    there: Vec<Vec<bool>>,
    found: HashMap<(usize, NodeId), Vec<Moment>>,
}

impl Noting {
    fn start(&mut self, block: usize, assumed: &[NodeId]) {
        assumed.iter().for_each(|&node| self.comes(block, node, None));
    }

    fn visit(&mut self, number: usize, visit: &Visit) {
        visit.came_in.iter().for_each(|&node| self.comes(visit.block, node, Some((number, 0))));
        for (place, replaced) in visit.replaced.iter().enumerate() {
            self.goes(visit.block, replaced.from);
            self.comes(visit.block, replaced.to, Some((number, place + 1)));
        }
    }

    /// A node that is there already does not come.
    fn comes(&mut self, block: usize, node: NodeId, moment: Moment) {
        if !std::mem::replace(&mut self.there[block][usize::from(node.0)], true) {
            self.found.entry((block, node)).or_default().push(moment);
        }
    }

    fn goes(&mut self, block: usize, node: NodeId) {
        self.there[block][usize::from(node.0)] = false;
    }
}

#[cfg(test)]
mod tests {
    use super::*;
    use crate::job::Job;

    /// In each round block 1 takes `1?.10` over from block 0, and makes it `1.10`.
    #[test]
    fn a_path_that_goes_and_comes_again_has_arrived_twice() {
        let text = "scope 1 block 0 assumes 1?.10 block 1 after 0 assumes 1 block 2 after 0";
        let job: Job = text.parse().unwrap();
        let replay = Replay::new(&job).unwrap();
        let (block, optional) = (1, replay.assumed(0)[0]);
        let visits = replay.visits().iter().enumerate();
        let came_in = visits.filter(|(_, visit)| visit.block == block && visit.came_in.contains(&optional));
        let visits: Vec<usize> = came_in.map(|(number, _)| number).collect();
        assert_eq!(visits.len(), 2);
        let arrivals = Arrivals::new(&replay, job.blocks().len());
        for visit in visits {
            assert_eq!(arrivals.last_before(block, optional, Some((visit, 1))), Some((visit, 0)));
        }
        let plain = replay.held(block).last().unwrap();
        assert_eq!(replay.path(plain).to_string(), "1.10");
        assert_eq!(arrivals.last_before(block, plain, END), Some((1, 1)));
    }
}
