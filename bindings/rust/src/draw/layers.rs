//! Blocks and gaps in layers, so that every arrow but those that close a loop goes down.

use crate::graph::Graph;
use std::collections::{BTreeSet, HashMap};

/// The most bends of all arrows together. Where there would be more, the longest arrows go
/// straight.
const MOST_BENDS: usize = 6_000;

/// The space between two blocks of a layer, and between two bends.
const BETWEEN_BLOCKS: f64 = 30.0;
const BETWEEN_BENDS: f64 = 12.0;

/// An arrow of control. It goes down from its upper end, or closes a loop and goes up.
pub(super) struct Arrow {
    /// The points by which it passes: a block, a bend for each layer between, and a block; from the
    /// top down.
    pub(super) points: Vec<usize>,
    /// Whether it closes a loop, and points to its upper end.
    pub(super) closes_loop: bool,
    /// Whether it goes straight over layers.
    pub(super) straight: bool,
}

/// Points in layers. A point is a block, by its place in the job, or a bend, by a number after
/// those.
pub(super) struct Layers {
    pub(super) layers: Vec<Vec<usize>>,
    pub(super) arrows: Vec<Arrow>,
    /// The blocks that are their own predecessors.
    pub(super) own_predecessors: Vec<usize>,
    /// The bends that the arrows below a block share, by the block and by whether they close loops.
    shared: HashMap<(usize, bool), Vec<usize>>,
    blocks: usize,
}

impl Layers {
    pub(super) fn new(graph: &Graph) -> Self {
        let walk = Walk::new(graph);
        let layer_of = layer_of(graph, &walk);
        let mut layers = vec![Vec::new(); layer_of.iter().max().map_or(0, |most| most + 1)];
        for &block in &walk.entered {
            layers[layer_of[block]].push(block);
        }
        let own_predecessors = (0..graph.len()).filter(|&block| graph.successors[block].contains(&block));
        let own_predecessors = own_predecessors.collect();
        let (arrows, shared, blocks) = (Vec::new(), HashMap::new(), graph.len());
        let mut made = Self { layers, arrows, own_predecessors, shared, blocks };
        made.add_arrows(graph, &walk, &layer_of);
        made
    }

    pub(super) fn is_bend(&self, point: usize) -> bool {
        point >= self.blocks
    }

    /// The space between two neighbours in a layer.
    pub(super) fn between(&self, one: usize, other: usize) -> f64 {
        if self.is_bend(one) && self.is_bend(other) {
            BETWEEN_BENDS
        } else {
            BETWEEN_BLOCKS
        }
    }

    /// The layer of each point, and its place there.
    pub(super) fn places(&self) -> Vec<(usize, usize)> {
        let mut places = vec![(0, 0); self.points()];
        for (layer, points) in self.layers.iter().enumerate() {
            points.iter().enumerate().for_each(|(place, &point)| places[point] = (layer, place));
        }
        places
    }

    /// How many points there are.
    pub(super) fn points(&self) -> usize {
        self.layers.iter().map(Vec::len).sum()
    }

    /// Adds the arrows, the shortest first, with their bends. Arrows below one block share theirs,
    /// so that they are seen as one line with branches.
    fn add_arrows(&mut self, graph: &Graph, walk: &Walk, layer_of: &[usize]) {
        let mut ends = Vec::new();
        for from in 0..graph.len() {
            for &to in graph.successors[from].iter().filter(|&&to| to != from) {
                let closes_loop = walk.closes_loop(from, to);
                ends.push(if closes_loop { (to, from, true) } else { (from, to, false) });
            }
        }
        ends.sort_by_key(|&(upper, lower, _)| layer_of[lower] - layer_of[upper]);
        for (upper, lower, closes_loop) in ends {
            let bends = self.bends(upper, closes_loop, layer_of[upper], layer_of[lower]);
            let straight = bends.is_none();
            let points = [vec![upper], bends.unwrap_or_default(), vec![lower]].concat();
            self.arrows.push(Arrow { points, closes_loop, straight });
        }
    }

    /// A bend in each layer between the two, of those that the block's arrows share; `None` where
    /// there are too many.
    fn bends(&mut self, upper: usize, closes_loop: bool, from: usize, to: usize) -> Option<Vec<usize>> {
        let mut bends = self.shared.remove(&(upper, closes_loop)).unwrap_or_default();
        let (count, mut point) = (to - from - 1, self.points());
        let there_is_room = point + count.saturating_sub(bends.len()) <= self.blocks + MOST_BENDS;
        while there_is_room && bends.len() < count {
            self.layers[from + 1 + bends.len()].push(point);
            bends.push(point);
            point += 1;
        }
        let own = bends.get(..count).map(<[usize]>::to_vec);
        self.shared.insert((upper, closes_loop), bends);
        own
    }

    /// The pairs of points in neighbouring layers that an arrow joins, each once.
    pub(super) fn links(&self) -> BTreeSet<(usize, usize)> {
        let bent = self.arrows.iter().filter(|arrow| !arrow.straight);
        bent.flat_map(|arrow| arrow.points.windows(2)).map(|pair| (pair[0], pair[1])).collect()
    }
}

/// A depth-first walk along control.
struct Walk {
    /// The blocks in the order in which they were entered.
    entered: Vec<usize>,
    entry: Vec<usize>,
    /// The blocks in the order in which they were left.
    left: Vec<usize>,
    exit: Vec<usize>,
}

impl Walk {
    /// Starts at the blocks without predecessors, then at those that are left.
    fn new(graph: &Graph) -> Self {
        let none = vec![usize::MAX; graph.len()];
        let mut walk = Self { entered: Vec::new(), entry: none.clone(), left: Vec::new(), exit: none };
        let first = (0..graph.len()).filter(|&block| graph.predecessors[block].is_empty());
        for start in first.chain(0..graph.len()) {
            walk.from(start, graph);
        }
        walk
    }

    fn from(&mut self, block: usize, graph: &Graph) {
        if self.entry[block] != usize::MAX {
            return;
        }
        self.entry[block] = self.entered.len();
        self.entered.push(block);
        for &next in &graph.successors[block] {
            self.from(next, graph);
        }
        self.exit[block] = self.left.len();
        self.left.push(block);
    }

    /// Whether the arrow goes back to a block that was not left when it was met.
    fn closes_loop(&self, from: usize, to: usize) -> bool {
        self.entry[to] <= self.entry[from] && self.exit[from] <= self.exit[to]
    }
}

/// One layer below the lowest predecessor; a block without one stands just above its highest
/// successor.
fn layer_of(graph: &Graph, walk: &Walk) -> Vec<usize> {
    let mut layer_of = vec![0; graph.len()];
    for &block in walk.left.iter().rev() {
        let before = graph.predecessors[block].iter().filter(|&&from| !walk.closes_loop(from, block));
        layer_of[block] = before.map(|&from| layer_of[from] + 1).max().unwrap_or(0);
    }
    for block in (0..graph.len()).filter(|&block| graph.predecessors[block].is_empty()) {
        let highest = graph.successors[block].iter().map(|&next| layer_of[next]).min();
        layer_of[block] = highest.map_or(0, |layer| layer - 1);
    }
    layer_of
}
