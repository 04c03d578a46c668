//! What is true of a job: by the job itself, by the library's sheet and answer, and by the events
//! of the replay.
//!
//! Nothing here is taken from the module `explain`. Where that goes back from a block to the blocks
//! that a path came from, this goes forward through the events.

use scope_deps::replay::{Propagation, Replay, Side, Visit};
use scope_deps::{
    answer, sheet, strict_answer, strict_sheet, Answer, Block, BlockId, Job, JobBuilder, NodeId, Path,
    RawRead, ReadScope, Sheet,
};
use std::cell::RefCell;
use std::collections::{BTreeSet, HashMap};

/// The blocks that assume a path, each with the form that it assumes, and with the instruction
/// where it reads it.
pub type Sources = BTreeSet<(BlockId, String, Option<u32>)>;

pub struct World<'j> {
    pub job: &'j Job,
    pub sheet: Sheet,
    pub answer: Answer,
    pub replay: Replay,
    /// What each block holds in the end, by the library.
    held: Vec<Vec<Path>>,
    /// The path of each node.
    paths: Vec<Path>,
    places: HashMap<BlockId, usize>,
    /// The neighbours of each block: before it, after it.
    near: [Vec<Vec<usize>>; 2],
    /// The blocks that can be come to from each, a bit for each: against control, with it, and
    /// both.
    reached: [Vec<u128>; 3],
    /// From where each block has what it holds in the end.
    sources: HashMap<(usize, NodeId), Sources>,
    /// The nodes that each block had just before its last visit on each side.
    before_last: HashMap<(usize, Side), Vec<BTreeSet<NodeId>>>,
    /// The last visit of each block on each side.
    last: HashMap<(usize, Side), usize>,
    /// What the scope block would hold if a read counted, by the places of its block and of itself.
    trials: RefCell<HashMap<(usize, usize), Option<Vec<Path>>>>,
}

pub fn show(path: &Path) -> String {
    format!("{path:#}")
}

/// Whether a path says that the base is there.
pub fn shows(path: &Path, base: &Path) -> bool {
    let next = path.entries().get(base.entries().len());
    base.names_start(path) && next.is_none_or(|entry| !entry.optional)
}

/// Whether a path goes on from the base by `?.`, so that by it the stage does not know the base.
pub fn leaves_open(path: &Path, base: &Path) -> bool {
    base.names_start(path) && !shows(path, base)
}

/// Whether a block assumes the path of a raw read: the range is one instruction or none, or the
/// instruction is in no scope, or the variable is known not to change.
pub fn is_kept(read: &RawRead) -> bool {
    let is_short = read.range_end.saturating_sub(read.range_start) <= 1;
    let is_outside = match read.scope {
        ReadScope::Some { start, end } => read.instruction < start || end <= read.instruction,
        ReadScope::None { .. } => true,
    };
    is_short || is_outside || read.known_immutable
}

/// The paths that a block assumes, in the order in which the stage meets them, with the instruction
/// of those that it reads.
fn assumed(block: &Block) -> impl Iterator<Item = (&Path, Option<u32>)> {
    let kept = block.raw_reads().iter().filter(|read| is_kept(read));
    let reads = kept.map(|read| (&read.path, Some(read.instruction)));
    reads.chain(block.assumed().iter().map(|path| (path, None)))
}

impl<'j> World<'j> {
    /// Nothing where the stage refuses the job.
    pub fn new(job: &'j Job, propagation: Propagation) -> Option<Self> {
        let (sheet, answer, replay) = match propagation {
            Propagation::Existing => (sheet(job), answer(job), Replay::new(job)),
            Propagation::Strict => (strict_sheet(job), strict_answer(job), Replay::strict(job)),
        };
        let (sheet, answer, replay) = (sheet.ok()?, answer.ok()?, replay.ok()?);
        let held = job.blocks().iter().map(|block| sheet.paths(block.id()).collect()).collect();
        let visits = replay.visits().iter().enumerate();
        let last = visits.map(|(number, visit)| ((visit.block, visit.side), number)).collect();
        let (sources, before_last) = (HashMap::new(), HashMap::new());
        let paths = replay.nodes().map(|node| replay.path(node)).collect();
        let places = job.blocks().iter().enumerate().map(|(place, block)| (block.id(), place)).collect();
        let near = neighbours(job, &places);
        let both: Vec<_> =
            near[0].iter().zip(&near[1]).map(|(before, after)| [&before[..], after].concat()).collect();
        let reached = [reached(&near[0]), reached(&near[1]), reached(&both)];
        let mut world = Self {
            job,
            sheet,
            answer,
            replay,
            held,
            paths,
            places,
            near,
            reached,
            sources,
            before_last,
            last,
            trials: RefCell::default(),
        };
        world.go_through_events();
        Some(world)
    }

    fn go_through_events(&mut self) {
        let count = self.job.blocks().len();
        let mut had: Vec<BTreeSet<NodeId>> = vec![BTreeSet::new(); count];
        let mut sources: HashMap<(usize, NodeId), Sources> = HashMap::new();
        for (block, had) in had.iter_mut().enumerate() {
            for &node in self.replay.assumed(block) {
                had.insert(node);
                let (id, path) = (self.job.blocks()[block].id(), self.path(node));
                let source = (id, show(path), self.own(id, path).unwrap());
                sources.insert((block, node), Sources::from([source]));
            }
        }
        for (number, visit) in self.replay.visits().iter().enumerate() {
            if !self.replay.is_settled() && self.last[&(visit.block, visit.side)] == number {
                self.before_last.insert((visit.block, visit.side), had.clone());
            }
            take(visit, &mut had, &mut sources);
        }
        self.sources = sources;
    }

    pub fn place(&self, id: BlockId) -> usize {
        *self.places.get(&id).unwrap_or_else(|| panic!("block {id} is none of the job"))
    }

    /// Whether the block assumes the path, and then the instruction that reads it, if one does.
    pub fn own(&self, id: BlockId, path: &Path) -> Option<Option<u32>> {
        let mut assumed = assumed(&self.job.blocks()[self.place(id)]);
        assumed.find(|(other, _)| other.same_entries(path)).map(|(_, read_at)| read_at)
    }

    /// All paths that blocks assume, in the job's order.
    pub fn all_assumed(&self) -> impl Iterator<Item = &Path> {
        self.job.blocks().iter().flat_map(|block| assumed(block).map(|(path, _)| path))
    }

    /// Why the first raw read by which the block assumes the path counts, if it does so by one.
    pub fn why_kept(&self, id: BlockId, path: &Path) -> Option<String> {
        let reads = self.job.blocks()[self.place(id)].raw_reads().iter();
        let read = reads.filter(|read| is_kept(read)).find(|read| read.path.same_entries(path))?;
        let RawRead { instruction: at, range_start: start, range_end: end, .. } = read;
        if end.saturating_sub(*start) <= 1 {
            return Some(format!("its range {start} to {end} is not longer than one instruction"));
        }
        Some(match read.scope {
            ReadScope::None { .. } => "it has no scope".to_string(),
            ReadScope::Some { start, end } if !(start..end).contains(at) => {
                format!("instruction {at} is not in its scope, {start} to {end}")
            }
            ReadScope::Some { .. } => "known to be immutable".to_string(),
        })
    }

    /// The raw reads of a block that do not count and would show the base, by their places.
    fn dropped(&self, id: BlockId, base: &Path) -> Vec<usize> {
        let reads = self.job.blocks()[self.place(id)].raw_reads().iter().enumerate();
        let dropped = reads.filter(|(_, read)| !is_kept(read) && shows(&read.path, base));
        dropped.map(|(place, _)| place).collect()
    }

    /// How many there are in all blocks.
    pub fn count_dropped(&self, base: &Path) -> usize {
        self.ids().map(|id| self.dropped(id, base).len()).sum()
    }

    /// Those of them that are to be told, each with whether the base would be known by it: all, in
    /// a job whose scope block does not have the base, where the block does not, either; else those
    /// by which it would.
    pub fn not_kept(&self, id: BlockId, base: &Path) -> Vec<(&RawRead, Option<bool>)> {
        let lacks = !self.has(id, base) && !self.has(self.job.scope(), base);
        let dropped = self.dropped(id, base).into_iter().map(|read| {
            let would = self.would_know(id, read, base);
            (&self.job.blocks()[self.place(id)].raw_reads()[read], would)
        });
        dropped.filter(|(_, would)| lacks || *would == Some(true)).collect()
    }

    /// Whether the base would be known if the read counted, by the library's sheet of that job;
    /// nothing where it refuses the job.
    fn would_know(&self, id: BlockId, read: usize, base: &Path) -> Option<bool> {
        let key = (self.place(id), read);
        let mut trials = self.trials.borrow_mut();
        let held = trials.entry(key).or_insert_with(|| self.held_with(key));
        held.as_ref().map(|held| knows(held, base))
    }

    /// What the scope block would hold if the read counted.
    fn held_with(&self, (block, read): (usize, usize)) -> Option<Vec<Path>> {
        let mut blocks = self.job.blocks().to_vec();
        let old = &self.job.blocks()[block];
        let mut reads = old.raw_reads().to_vec();
        reads[read].known_immutable = true;
        blocks[block] = Block::new(old.id())
            .after(old.predecessors().iter().copied())
            .reading(reads)
            .assuming(old.assumed().to_vec());
        let builder = blocks.into_iter().fold(Job::builder(self.job.scope()), JobBuilder::block);
        let job = builder.build().unwrap();
        let sheet = match self.replay.propagation() {
            Propagation::Existing => sheet(&job),
            Propagation::Strict => strict_sheet(&job),
        };
        Some(sheet.ok()?.paths(job.scope()).collect())
    }

    /// Whether the block holds the very path in the end.
    pub fn holds(&self, id: BlockId, path: &Path) -> bool {
        self.held[self.place(id)].iter().any(|other| other.same_entries(path))
    }

    /// Whether the block has the base in the end, by any path.
    pub fn has(&self, id: BlockId, base: &Path) -> bool {
        self.held[self.place(id)].iter().any(|path| shows(path, base))
    }

    /// All blocks that have the base in the end.
    pub fn having(&self, base: &Path) -> Vec<BlockId> {
        self.ids().filter(|&id| self.has(id, base)).collect()
    }

    pub fn ids(&self) -> impl Iterator<Item = BlockId> + '_ {
        self.job.blocks().iter().map(|block| block.id())
    }

    pub fn path(&self, node: NodeId) -> &Path {
        &self.paths[usize::from(node.0)]
    }

    /// The path of each node.
    pub fn paths(&self) -> &[Path] {
        &self.paths
    }

    /// The paths of the scope block, in the order in which the first counts.
    pub fn deciding(&self) -> Vec<&Path> {
        deciding(&self.held[self.place(self.job.scope())])
    }

    /// The first of them with the base's names.
    pub fn deciding_about(&self, base: &Path) -> &Path {
        self.deciding().into_iter().find(|path| base.names_start(path)).unwrap()
    }

    /// Whether the stage takes the base to be there in the scope block.
    pub fn is_known(&self, base: &Path) -> bool {
        knows(&self.held[self.place(self.job.scope())], base)
    }

    /// Whether the stage met the first path before the second. It goes through the assumed paths in
    /// the job's order, each from its start; what it makes later it has not met before.
    pub fn met_before(&self, first: &Path, second: &Path) -> bool {
        let starts =
            |path: &Path| (0..=path.entries().len()).map(|length| path.prefix(length)).collect::<Vec<_>>();
        let in_job: Vec<Path> = self.all_assumed().flat_map(starts).collect();
        let met = |path: &Path| in_job.iter().position(|other| other.same_entries(path));
        match (met(first), met(second)) {
            (Some(first), Some(second)) => first < second,
            (None, None) => {
                let made = |path: &Path| self.paths.iter().position(|other| other.same_entries(path));
                made(first) < made(second)
            }
            (first, _) => first.is_some(),
        }
    }

    pub fn neighbours(&self, id: BlockId, side: Side) -> Vec<BlockId> {
        self.id_list(&self.near[usize::from(side == Side::Successors)][self.place(id)])
    }

    /// Whether control can go from the first to the second, by one arrow or more.
    pub fn leads(&self, from: BlockId, to: BlockId) -> bool {
        self.reached[1][self.place(from)] >> self.place(to) & 1 == 1
    }

    /// Whether arrows connect the two, whichever way they point.
    pub fn connected(&self, one: BlockId, other: BlockId) -> bool {
        self.reached[2][self.place(one)] >> self.place(other) & 1 == 1
    }

    pub fn on_a_loop(&self, one: BlockId, other: BlockId) -> bool {
        self.leads(one, other) && self.leads(other, one)
    }

    pub fn id_list(&self, places: &[usize]) -> Vec<BlockId> {
        places.iter().map(|&place| self.job.blocks()[place].id()).collect()
    }

    /// The last visit of a block on a side.
    pub fn last_visit(&self, id: BlockId, side: Side) -> &Visit {
        &self.replay.visits()[self.last[&(self.place(id), side)]]
    }

    /// The neighbours of a block on a side that its last visit did not find finished, in the walk's
    /// order: their visits in that walk ended no earlier.
    pub fn unfinished(&self, id: BlockId, side: Side) -> Vec<BlockId> {
        let ended = |id: BlockId| self.last[&(self.place(id), side)];
        let mut unfinished = self.neighbours(id, side);
        unfinished.retain(|&near| ended(near) >= ended(id));
        if side == Side::Successors {
            unfinished.sort();
        }
        unfinished
    }

    /// Whether nothing came to a block from its neighbours on a side, in any visit.
    pub fn takes_nothing_over(&self, id: BlockId, side: Side) -> bool {
        let place = self.place(id);
        let mut visits =
            self.replay.visits().iter().filter(|visit| (visit.block, visit.side) == (place, side));
        visits.all(|visit| visit.came_in.is_empty())
    }

    /// Whether paths came to a block only when all its neighbours on that side had been visited
    /// before it in the same walk.
    pub fn takes_over_from_finished_only(&self) -> bool {
        let mut walks = self.replay.visits().chunks(self.job.blocks().len());
        walks.all(|walk| {
            walk.iter().enumerate().all(|(at, visit)| {
                let near = &self.near[usize::from(visit.side == Side::Successors)][visit.block];
                let is_finished = |near: &usize| walk[..at].iter().any(|earlier| earlier.block == *near);
                visit.came_in.is_empty() || near.iter().all(is_finished)
            })
        })
    }

    /// What the blocks had before the last visit of a block, in a job that did not settle.
    pub fn before_last(&self, id: BlockId, side: Side) -> &[BTreeSet<NodeId>] {
        &self.before_last[&(self.place(id), side)]
    }

    /// The visits of a block in which a path came in, on a side.
    pub fn visits_with(&self, id: BlockId, side: Side, path: &Path) -> Vec<&Visit> {
        let place = self.place(id);
        let of_path = |node: &NodeId| self.path(*node).same_entries(path);
        let visits = self.replay.visits().iter();
        visits
            .filter(|visit| visit.block == place && visit.side == side && visit.came_in.iter().any(of_path))
            .collect()
    }

    /// From where a block has the path that it holds in the end.
    pub fn sources(&self, id: BlockId, path: &Path) -> &Sources {
        let node = self.replay.nodes().find(|&node| self.path(node).same_entries(path));
        &self.sources[&(self.place(id), node.unwrap())]
    }
}

/// Paths that a block holds, in the order in which the first counts.
fn deciding(held: &[Path]) -> Vec<&Path> {
    let (ahead, others): (Vec<&Path>, Vec<&Path>) =
        held.iter().partition(|path| path.entries().first().is_some_and(|entry| entry.optional));
    ahead.into_iter().chain(others).collect()
}

/// Whether the stage takes the base to be there where a block holds these.
fn knows(held: &[Path], base: &Path) -> bool {
    deciding(held).iter().find(|path| base.names_start(path)).is_some_and(|path| shows(path, base))
}

/// What an event does. A path that is there already keeps its sources.
fn take(visit: &Visit, had: &mut [BTreeSet<NodeId>], sources: &mut HashMap<(usize, NodeId), Sources>) {
    for &node in &visit.came_in {
        let of_joined = visit.joined.iter().flat_map(|&near| sources[&(near, node)].iter().cloned());
        let all: Sources = of_joined.collect();
        sources.insert((visit.block, node), all);
        had[visit.block].insert(node);
    }
    for replaced in &visit.replaced {
        let before = sources.remove(&(visit.block, replaced.from)).unwrap();
        sources.entry((visit.block, replaced.to)).or_insert(before);
        had[visit.block].remove(&replaced.from);
        had[visit.block].insert(replaced.to);
    }
}

/// The blocks before each, in the order of its record, and those after it.
fn neighbours(job: &Job, places: &HashMap<BlockId, usize>) -> [Vec<Vec<usize>>; 2] {
    let before = job.blocks().iter().map(|block| block.predecessors().iter().map(|id| places[id]).collect());
    let before: Vec<Vec<usize>> = before.collect();
    let after = (0..before.len()).map(|block| {
        let follows = |&other: &usize| before[other].contains(&block);
        (0..before.len()).filter(follows).collect()
    });
    let after = after.collect();
    [before, after]
}

/// The blocks that can be come to from each block, by one step or more.
fn reached(near: &[Vec<usize>]) -> Vec<u128> {
    let bits = |near: &Vec<usize>| near.iter().fold(0, |bits, &block| bits | 1 << block);
    let mut reached: Vec<u128> = near.iter().map(bits).collect();
    for middle in 0..near.len() {
        for block in 0..near.len() {
            if reached[block] >> middle & 1 == 1 {
                reached[block] |= reached[middle];
            }
        }
    }
    reached
}
