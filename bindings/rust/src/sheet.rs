//! Sheets: all nodes of paths, and each block's set of them.

use crate::bytes::{Fault, Fields, Malformed};
use crate::ids::{BlockId, IdentifierId, NodeId, Span};
use crate::limits;
pub(crate) use crate::node_set::NodeSet;
use crate::path::{Entry, Path};

/// What propagation arrived at for a job.
///
/// It is shown in the notation of `docs/NOTATION.md`.
#[derive(Clone, Debug, PartialEq, Eq, Hash)]
pub struct Sheet {
    rounds: u8,
    settled: bool,
    nodes_before_rounds: usize,
    nodes: Vec<Node>,
    sets: Vec<(BlockId, NodeSet)>,
}

/// A node of the registry: a variable, or one entry more than its parent.
#[derive(Clone, Copy, Debug, PartialEq, Eq, Hash)]
pub struct Node {
    /// The node that it is one entry longer than, and that entry; `None` for a variable itself.
    pub parent: Option<(NodeId, Entry)>,
    /// The variable.
    pub identifier: IdentifierId,
    /// The span of the entry, or of the path that first made the variable's node.
    pub span: Span,
    /// Whether the variable is reactive.
    pub reactive: bool,
}

impl Sheet {
    /// The sheet in these bytes.
    ///
    /// # Errors
    ///
    /// The first field that is not as `docs/FORMAT.md` has it.
    pub fn from_bytes(bytes: &[u8]) -> Result<Self, Malformed> {
        let mut sheet = Self::empty(Vec::new(), Vec::new());
        sheet.read(bytes)?;
        Ok(sheet)
    }

    /// A sheet with room for any.
    #[cfg(feature = "library")]
    pub(crate) fn roomy() -> Self {
        Self::empty(Vec::with_capacity(limits::NODES), Vec::with_capacity(limits::BLOCKS))
    }

    /// A sheet to be read into this room.
    fn empty(nodes: Vec<Node>, sets: Vec<(BlockId, NodeSet)>) -> Self {
        Self { rounds: 0, settled: false, nodes_before_rounds: 0, nodes, sets }
    }

    /// Makes of this the sheet in these bytes.
    pub(crate) fn read(&mut self, bytes: &[u8]) -> Result<(), Malformed> {
        let mut fields = Fields::new(bytes);
        fields.mark(*b"SH", "the mark SH")?;
        let nodes = fields.long_count(0..=limits::NODES, "how many nodes (0 to 512)")?;
        let blocks = fields.long_count(1..=limits::BLOCKS, "how many blocks (1 to 128)")?;
        self.rounds = fields.u8("how many rounds")?;
        self.settled = fields.flag("settled (0 or 1)")?;
        self.nodes_before_rounds = fields.long_count(0..=nodes, BEFORE_ROUNDS)?;
        self.nodes.clear();
        read_nodes(&mut fields, nodes, &mut self.nodes)?;
        self.sets.clear();
        for _ in 0..blocks {
            self.sets.push(read_set(&mut fields, nodes)?);
        }
        fields.end()
    }

    /// How many rounds propagation took, at most 100.
    #[must_use]
    pub fn rounds(&self) -> u8 {
        self.rounds
    }

    /// Whether the last round changed nothing.
    #[must_use]
    pub fn is_settled(&self) -> bool {
        self.settled
    }

    /// The nodes, by number.
    #[must_use]
    pub fn nodes(&self) -> impl ExactSizeIterator<Item = (NodeId, &Node)> {
        self.nodes.iter().enumerate().map(|(number, node)| (NodeId(number as u16), node))
    }

    /// How many nodes there were before the first round: those of the assumed paths. The nodes from
    /// this number on were added by reduction, where it made a `?.` plain.
    ///
    /// ```
    /// use scope_deps::{sheet, Job};
    ///
    /// // 1 and 1?.10 are entered before the first round. Reduction makes 1.10 of the second.
    /// let sheet = sheet(&"scope 7 block 7 assumes 1, 1?.10".parse::<Job>()?)?;
    /// assert_eq!((sheet.nodes().len(), sheet.nodes_before_rounds()), (3, 2));
    /// let added: Vec<String> = sheet.added_nodes().map(|(node, _)| sheet.path(node).to_string()).collect();
    /// assert_eq!(added, ["1.10"]);
    /// # Ok::<(), Box<dyn std::error::Error>>(())
    /// ```
    #[must_use]
    pub fn nodes_before_rounds(&self) -> usize {
        self.nodes_before_rounds
    }

    /// The nodes that reduction added, by number.
    #[must_use]
    pub fn added_nodes(&self) -> impl ExactSizeIterator<Item = (NodeId, &Node)> {
        self.nodes().skip(self.nodes_before_rounds)
    }

    /// Whether this is a node of the sheet that reduction added.
    #[must_use]
    pub fn is_added(&self, node: NodeId) -> bool {
        (self.nodes_before_rounds..self.nodes.len()).contains(&usize::from(node.0))
    }

    /// The blocks in the job's order, each with its set.
    #[must_use]
    pub fn sets(&self) -> impl ExactSizeIterator<Item = (BlockId, &NodeSet)> {
        self.sets.iter().map(|(id, set)| (*id, set))
    }

    /// A block's set.
    #[must_use]
    pub fn set(&self, block: BlockId) -> Option<&NodeSet> {
        self.sets.iter().find(|(id, _)| *id == block).map(|(_, set)| set)
    }

    /// A node's path, from its variable on: each entry with the span of the entry that made its
    /// node.
    ///
    /// # Panics
    ///
    /// Where the sheet has no such node.
    #[must_use]
    pub fn path(&self, node: NodeId) -> Path {
        let node = &self.nodes[usize::from(node.0)];
        match node.parent {
            None => Path::new(node.identifier).with_reactive(node.reactive).with_span(node.span),
            Some((parent, entry)) => self.path(parent).then(entry),
        }
    }

    /// The paths of a block's set, by node number.
    pub fn paths(&self, block: BlockId) -> impl Iterator<Item = Path> + '_ {
        self.set(block).into_iter().flat_map(NodeSet::iter).map(|node| self.path(node))
    }
}

/// The last field of the head.
const BEFORE_ROUNDS: &str = "how many nodes before the first round (0 to the number of nodes)";

/// The parent of a root.
const NO_PARENT: u16 = 65_535;

/// The nodes. A parent stands before its children, and no path has more than 16 entries.
fn read_nodes(fields: &mut Fields, count: usize, nodes: &mut Vec<Node>) -> Result<(), Malformed> {
    let mut lengths = [0; limits::NODES];
    for place in 0..count {
        let byte = fields.at();
        let node = read_node(fields)?;
        let length = match node.parent {
            None => Some(0),
            Some((parent, _)) => lengths[..place].get(usize::from(parent.0)).map(|length| length + 1),
        };
        let in_range = length.filter(|&length| length <= limits::ENTRIES);
        let outside = Malformed { fault: Fault::OutOfRange, byte, field: "a node's parent", found: None };
        lengths[place] = in_range.ok_or(outside)?;
        nodes.push(node);
    }
    Ok(())
}

fn read_node(fields: &mut Fields) -> Result<Node, Malformed> {
    fields.mark(*b"NO", "the mark NO")?;
    let parent = fields.u16("a node's parent")?;
    let identifier = IdentifierId(fields.u32("a node's identifier")?);
    let optional = fields.flag("a node's optional mark (0 or 1)")?;
    let property = fields.property()?;
    let span = Span(fields.u32("a node's span")?);
    let reactive = fields.flag("a node's reactive mark (0 or 1)")?;
    let entry = Entry { property, optional, span };
    let parent = Some(parent).filter(|&parent| parent != NO_PARENT).map(|parent| (NodeId(parent), entry));
    Ok(Node { parent, identifier, span, reactive })
}

/// A block's set, which holds only nodes that there are.
fn read_set(fields: &mut Fields, nodes: usize) -> Result<(BlockId, NodeSet), Malformed> {
    fields.mark(*b"SE", "the mark SE")?;
    let id = BlockId(fields.u32("a block's id")?);
    let byte = fields.at();
    let set = NodeSet::from_bits(fields.take("a block's set")?);
    if set.iter().all(|node| usize::from(node.0) < nodes) {
        Ok((id, set))
    } else {
        Err(Malformed { fault: Fault::OutOfRange, byte, field: "a block's set", found: None })
    }
}
