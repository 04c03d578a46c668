//! How many bytes the records of a job take.

/// `HD`.
pub(crate) const HEADER: usize = 10;

/// `BL`, with so many predecessors.
pub(crate) fn block(predecessors: usize) -> usize {
    9 + 4 * predecessors
}

/// `RD`, with so many entries.
pub(crate) fn raw_read(entries: usize) -> usize {
    22 + path(entries)
}

/// `PA` or `CA`, with so many entries.
pub(crate) fn path(entries: usize) -> usize {
    12 + 14 * entries
}
