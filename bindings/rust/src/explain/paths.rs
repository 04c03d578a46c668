//! What a path says about the base of an entry.

use crate::path::Path;

/// Whether a path that is there shows the base to be there: it is the base, or goes on from it by a
/// plain entry.
pub(super) fn shows(path: &Path, base: &Path) -> bool {
    base.names_start(path) && !goes_on_optional(path, base)
}

/// Whether the path goes on from the base by `?.`, so that by it the stage does not know the base.
pub(super) fn leaves_open(path: &Path, base: &Path) -> bool {
    base.names_start(path) && goes_on_optional(path, base)
}

/// Whether the path's first entry is optional.
pub(super) fn starts_optional(path: &Path) -> bool {
    path.entries().first().is_some_and(|entry| entry.optional)
}

fn goes_on_optional(path: &Path, base: &Path) -> bool {
    path.entries().get(base.entries().len()).is_some_and(|entry| entry.optional)
}
