//! A job as a value, its limits, and its bytes.

use std::collections::HashSet;

/// The limits of the specification.
pub mod limits {
    /// The shortest out buffer of an answer or a sheet.
    pub const OUT_BYTES: usize = 24_576;
    /// The shortest out buffer of a thin job. It is long enough for all operations.
    pub const THIN_BYTES: usize = 32_768;
    pub const JOB_BYTES: usize = 32_768;
    pub const BLOCKS: usize = 128;
    pub const CANDIDATES: usize = 64;
    pub const PREDECESSORS: usize = 64;
    pub const ASSUMED: usize = 255;
    /// Raw reads of a block.
    pub const READS: usize = 255;
    /// The largest range start after which one more still fits.
    pub const RANGE_START: u32 = u32::MAX - 1;
    pub const ENTRIES: usize = 16;
    pub const NODES: usize = 512;
    pub const ROUNDS: usize = 100;
}

#[derive(Debug, Clone, Copy, PartialEq, Eq, Hash)]
pub enum Property {
    /// The host's number for the string.
    Name(u64),
    /// The stored bits of the float.
    Number(u64),
}

#[derive(Debug, Clone, Copy, PartialEq, Eq, Hash)]
pub struct Entry {
    pub optional: bool,
    pub property: Property,
    pub span: u32,
}

#[derive(Debug, Clone, PartialEq, Eq, Hash)]
pub struct Path {
    pub identifier: u32,
    pub reactive: bool,
    pub span: u32,
    pub entries: Vec<Entry>,
}

/// A path that a block reads, with what says whether it is known not to change any more at the
/// instruction that reads it. Where it has no scope, the scope's range holds any numbers.
#[derive(Debug, Clone, PartialEq, Eq, Hash)]
pub struct RawRead {
    pub instruction: u32,
    pub range_start: u32,
    pub range_end: u32,
    pub has_scope: bool,
    pub scope_start: u32,
    pub scope_end: u32,
    pub known_immutable: bool,
    pub path: Path,
}

#[derive(Debug, Clone, PartialEq, Eq)]
pub struct Block {
    pub id: u32,
    pub predecessors: Vec<u32>,
    pub reads: Vec<RawRead>,
    /// The paths that come ready; `reads::assumed` has those of the reads that are kept too.
    pub assumed: Vec<Path>,
}

impl Block {
    /// The block with these raw reads.
    pub fn reading(self, reads: Vec<RawRead>) -> Self {
        Self { reads, ..self }
    }
}

#[derive(Debug, Clone, PartialEq, Eq)]
pub struct Job {
    pub scope: u32,
    pub blocks: Vec<Block>,
    pub candidates: Vec<Path>,
}

impl Property {
    pub fn kind(self) -> u8 {
        match self {
            Property::Name(_) => 0,
            Property::Number(_) => 1,
        }
    }

    pub fn value(self) -> u64 {
        match self {
            Property::Name(value) | Property::Number(value) => value,
        }
    }
}

impl Job {
    /// The bytes of the job. Counts are cut to their fields, and no limit is
    /// looked at, so that jobs beyond the limits can be written too.
    pub fn to_bytes(&self) -> Vec<u8> {
        let mut out = b"HD".to_vec();
        out.extend((self.blocks.len() as u16).to_le_bytes());
        out.extend((self.candidates.len() as u16).to_le_bytes());
        out.extend(self.scope.to_le_bytes());
        for block in &self.blocks {
            put_block(&mut out, block);
        }
        for candidate in &self.candidates {
            put_path(&mut out, b"CA", candidate);
        }
        out
    }

    /// Takes away blocks without predecessors until none is left; what stays is a loop.
    pub fn has_loop(&self) -> bool {
        let mut left: Vec<&Block> = self.blocks.iter().collect();
        loop {
            let ids: HashSet<u32> = left.iter().map(|block| block.id).collect();
            let before = left.len();
            left.retain(|block| block.predecessors.iter().any(|id| ids.contains(id)));
            if left.len() == before {
                return !left.is_empty();
            }
        }
    }
}

fn put_block(out: &mut Vec<u8>, block: &Block) {
    out.extend(b"BL");
    out.extend(block.id.to_le_bytes());
    out.push(block.predecessors.len() as u8);
    out.push(block.assumed.len() as u8);
    out.push(block.reads.len() as u8);
    for predecessor in &block.predecessors {
        out.extend(predecessor.to_le_bytes());
    }
    for read in &block.reads {
        put_read(out, read);
    }
    for path in &block.assumed {
        put_path(out, b"PA", path);
    }
}

fn put_read(out: &mut Vec<u8>, read: &RawRead) {
    out.extend(b"RD");
    for number in [read.instruction, read.range_start, read.range_end] {
        out.extend(number.to_le_bytes());
    }
    out.push(read.has_scope.into());
    out.extend(read.scope_start.to_le_bytes());
    out.extend(read.scope_end.to_le_bytes());
    out.push(read.known_immutable.into());
    put_path_fields(out, &read.path);
}

/// Writes a path under a mark; PA, CA and DE have the same fields.
pub fn put_path(out: &mut Vec<u8>, mark: &[u8; 2], path: &Path) {
    out.extend(mark);
    put_path_fields(out, path);
}

fn put_path_fields(out: &mut Vec<u8>, path: &Path) {
    out.extend(path.identifier.to_le_bytes());
    out.push(path.reactive.into());
    out.extend(path.span.to_le_bytes());
    out.push(path.entries.len() as u8);
    for entry in &path.entries {
        out.push(entry.optional.into());
        out.push(entry.property.kind());
        out.extend(entry.property.value().to_le_bytes());
        out.extend(entry.span.to_le_bytes());
    }
}
