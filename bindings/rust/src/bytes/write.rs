//! Writes a job's bytes.

use crate::ids::BlockId;
use crate::job::Block;
use crate::path::{Entry, Path, Property};
use crate::raw_read::RawRead;

/// The bytes of a job whose counts fit their fields.
pub(crate) fn write_job(scope: BlockId, blocks: &[Block], candidates: &[Path]) -> Vec<u8> {
    let mut out = b"HD".to_vec();
    out.extend((blocks.len() as u16).to_le_bytes());
    out.extend((candidates.len() as u16).to_le_bytes());
    out.extend(scope.0.to_le_bytes());
    for block in blocks {
        write_block(&mut out, block);
    }
    for candidate in candidates {
        write_path(&mut out, *b"CA", candidate);
    }
    out
}

fn write_block(out: &mut Vec<u8>, block: &Block) {
    out.extend(b"BL");
    out.extend(block.id().0.to_le_bytes());
    out.push(block.predecessors().len() as u8);
    out.push(block.assumed().len() as u8);
    out.push(block.raw_reads().len() as u8);
    for predecessor in block.predecessors() {
        out.extend(predecessor.0.to_le_bytes());
    }
    for read in block.raw_reads() {
        write_read(out, read);
    }
    for path in block.assumed() {
        write_path(out, *b"PA", path);
    }
}

fn write_read(out: &mut Vec<u8>, read: &RawRead) {
    let (has_scope, scope_start, scope_end) = read.scope.fields();
    out.extend(b"RD");
    out.extend(read.instruction.to_le_bytes());
    out.extend(read.range_start.to_le_bytes());
    out.extend(read.range_end.to_le_bytes());
    out.push(has_scope.into());
    out.extend(scope_start.to_le_bytes());
    out.extend(scope_end.to_le_bytes());
    out.push(read.known_immutable.into());
    write_path_fields(out, &read.path);
}

fn write_path(out: &mut Vec<u8>, mark: [u8; 2], path: &Path) {
    out.extend(mark);
    write_path_fields(out, path);
}

/// The fields of `PA` from the identifier on.
fn write_path_fields(out: &mut Vec<u8>, path: &Path) {
    out.extend(path.identifier().0.to_le_bytes());
    out.push(path.is_reactive().into());
    out.extend(path.span().0.to_le_bytes());
    out.push(path.entries().len() as u8);
    for entry in path.entries() {
        write_entry(out, entry);
    }
}

fn write_entry(out: &mut Vec<u8>, entry: &Entry) {
    let (kind, value) = match entry.property {
        Property::Name(value) => (0, value),
        Property::Number(value) => (1, value),
    };
    out.push(entry.optional.into());
    out.push(kind);
    out.extend(value.to_le_bytes());
    out.extend(entry.span.0.to_le_bytes());
}
