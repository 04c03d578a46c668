//! Reads answers and sheets back, and says what is not well formed in them.

use crate::job::{Entry, Path, Property, limits};
use crate::reader::{Reader, Refusal};
use std::collections::HashSet;

#[derive(Debug, Clone, PartialEq, Eq)]
pub struct Answer {
    pub rounds: u8,
    pub settled: bool,
    pub returned: Vec<Path>,
}

#[derive(Debug, Clone, PartialEq, Eq)]
pub struct Node {
    /// None for a root.
    pub parent: Option<usize>,
    pub identifier: u32,
    pub optional: bool,
    pub property: Property,
    pub span: u32,
    pub reactive: bool,
}

#[derive(Debug, Clone, PartialEq, Eq)]
pub struct Sheet {
    pub rounds: u8,
    pub settled: bool,
    /// How many of the nodes were there before the first round; reduction made the others.
    pub nodes_before: usize,
    pub nodes: Vec<Node>,
    /// Each block's id and node numbers, in job order.
    pub sets: Vec<(u32, Vec<usize>)>,
}

impl Sheet {
    /// The path of a node.
    pub fn path(&self, number: usize) -> Path {
        let Node { parent, identifier, optional, property, span, reactive } = self.nodes[number];
        let Some(parent) = parent else {
            return Path { identifier, reactive, span, entries: vec![] };
        };
        let mut path = self.path(parent);
        path.entries.push(Entry { optional, property, span });
        path
    }
}

/// What a program wrote: its own record, or a refusal.
#[derive(Debug, Clone, PartialEq, Eq)]
pub enum Written<T> {
    Record(T),
    Refused(Refusal),
}

pub fn read_answer(bytes: &[u8]) -> Result<Written<Answer>, String> {
    read_written(bytes, |reader| {
        reader.mark(b"AN")?;
        let count = reader.u16()?;
        let (rounds, settled) = (reader.u8()?, reader.flag()?);
        let returned = (0..count).map(|_| reader.path(b"DE")).collect::<Result<_, _>>()?;
        Ok(Answer { rounds, settled, returned })
    })
    .and_then(|written| checked(written, check_answer))
}

pub fn read_sheet(bytes: &[u8]) -> Result<Written<Sheet>, String> {
    read_written(bytes, |reader| {
        reader.mark(b"SH")?;
        let (node_count, block_count) = (reader.u16()?, reader.u16()?);
        let (rounds, settled) = (reader.u8()?, reader.flag()?);
        let nodes_before = reader.u16()?.into();
        let nodes = (0..node_count).map(|_| read_node(reader)).collect::<Result<_, _>>()?;
        let sets = (0..block_count).map(|_| read_set(reader)).collect::<Result<_, _>>()?;
        Ok(Sheet { rounds, settled, nodes_before, nodes, sets })
    })
    .and_then(|written| checked(written, check_sheet))
}

fn read_node(reader: &mut Reader) -> Result<Node, Refusal> {
    reader.mark(b"NO")?;
    let parent = Some(reader.u16()?).filter(|&parent| parent != u16::MAX).map(usize::from);
    let identifier = reader.u32()?;
    let (optional, number, value) = (reader.flag()?, reader.flag()?, reader.u64()?);
    let property = if number { Property::Number(value) } else { Property::Name(value) };
    Ok(Node { parent, identifier, optional, property, span: reader.u32()?, reactive: reader.flag()? })
}

fn read_set(reader: &mut Reader) -> Result<(u32, Vec<usize>), Refusal> {
    reader.mark(b"SE")?;
    let id = reader.u32()?;
    let bits: [u8; limits::NODES / 8] = reader.take()?;
    Ok((id, (0..limits::NODES).filter(|node| bits[node / 8] >> (node % 8) & 1 == 1).collect()))
}

fn read_written<T>(
    bytes: &[u8],
    read: impl FnOnce(&mut Reader) -> Result<T, Refusal>,
) -> Result<Written<T>, String> {
    if let [b'R', b'F', number] = *bytes {
        let known = (1..=10).contains(&number);
        return if known {
            Ok(Written::Refused(number))
        } else {
            Err(format!("there is no refusal {number}"))
        };
    }
    let mut reader = Reader::new(bytes);
    let record = read(&mut reader).map_err(|number| {
        let what = match number {
            3 => "it ends too early",
            4 => "a mark is not the one due",
            _ => "a field lies outside its range",
        };
        what.to_string()
    })?;
    if reader.at_end() { Ok(Written::Record(record)) } else { Err("bytes follow its end".into()) }
}

fn checked<T>(
    written: Written<T>,
    check: impl FnOnce(&T) -> Result<(), String>,
) -> Result<Written<T>, String> {
    if let Written::Record(record) = &written {
        check(record)?;
    }
    Ok(written)
}

fn check_rounds(rounds: u8, settled: bool) -> Result<(), String> {
    if rounds == 0 || usize::from(rounds) > limits::ROUNDS {
        return Err(format!("{rounds} rounds cannot be"));
    }
    if !settled && usize::from(rounds) < limits::ROUNDS {
        return Err(format!("it stopped after {rounds} rounds without being settled"));
    }
    Ok(())
}

fn check_answer(answer: &Answer) -> Result<(), String> {
    check_rounds(answer.rounds, answer.settled)?;
    let count = answer.returned.len();
    if count > limits::CANDIDATES { Err(format!("{count} paths are returned")) } else { Ok(()) }
}

fn check_sheet(sheet: &Sheet) -> Result<(), String> {
    check_rounds(sheet.rounds, sheet.settled)?;
    if sheet.nodes.len() > limits::NODES || sheet.sets.len() > limits::BLOCKS {
        return Err("it has too many nodes or blocks".into());
    }
    let mut seen = HashSet::new();
    for (number, node) in sheet.nodes.iter().enumerate() {
        check_node(sheet, number, node)?;
        if !seen.insert((node.parent, node.identifier, node.optional, node.property)) {
            return Err(format!("node {number} was there before"));
        }
    }
    check_made(sheet)?;
    for (id, set) in &sheet.sets {
        if set.iter().any(|&node| node >= sheet.nodes.len()) {
            return Err(format!("the set of block {id} holds a node that does not exist"));
        }
    }
    Ok(())
}

fn check_node(sheet: &Sheet, number: usize, node: &Node) -> Result<(), String> {
    let fits = match node.parent {
        None => !node.optional && node.property == Property::Name(0),
        Some(parent) if parent < number => {
            let parent = &sheet.nodes[parent];
            (parent.identifier, parent.reactive) == (node.identifier, node.reactive)
        }
        Some(_) => false,
    };
    if fits { Ok(()) } else { Err(format!("node {number} does not fit its parent")) }
}

/// Each node from `nodes_before` on is an entered one with optional entries made plain.
fn check_made(sheet: &Sheet) -> Result<(), String> {
    let (before, nodes) = (sheet.nodes_before, sheet.nodes.len());
    if before > nodes {
        return Err(format!("it has {before} nodes before the first round, and {nodes} at the end"));
    }
    for made in before..nodes {
        if sheet.nodes[made].parent.is_none() {
            return Err(format!("node {made} is a root, and reduction makes none"));
        }
        if !(0..before).any(|entered| reduces_to(sheet, entered, made)) {
            return Err(format!("node {made} is no node that reduction could make of those before"));
        }
    }
    Ok(())
}

/// Whether a node's path has the other's names, and is optional wherever that one is; since no node
/// is there twice, it is so at a further place too. Reduction keeps the span of the entry that it
/// makes plain, and of those after it.
fn reduces_to(sheet: &Sheet, entered: usize, made: usize) -> bool {
    let (mut from, mut to) = (&sheet.nodes[entered], &sheet.nodes[made]);
    let same_span = from.span == to.span;
    while let (Some(base), Some(base_made)) = (from.parent, to.parent) {
        if from.property != to.property || to.optional && !from.optional {
            return false;
        }
        (from, to) = (&sheet.nodes[base], &sheet.nodes[base_made]);
    }
    same_span && (from.parent, from.identifier) == (to.parent, to.identifier)
}
