//! Answers: the returned paths.

use crate::bytes::{Fields, Malformed};
use crate::limits;
use crate::path::Path;

/// What the stage returns for a job.
///
/// It is shown in the notation of `docs/NOTATION.md`.
#[derive(Clone, Debug, PartialEq, Eq, Hash)]
pub struct Answer {
    rounds: u8,
    settled: bool,
    paths: Vec<Path>,
}

impl Answer {
    /// The answer in these bytes.
    ///
    /// # Errors
    ///
    /// The first field that is not as `docs/FORMAT.md` has it.
    pub fn from_bytes(bytes: &[u8]) -> Result<Self, Malformed> {
        let mut answer = Self { rounds: 0, settled: false, paths: Vec::new() };
        answer.read(bytes, &mut Vec::new())?;
        Ok(answer)
    }

    /// An answer with room for any, and as many paths to be used in it.
    #[cfg(feature = "library")]
    pub(crate) fn roomy() -> (Self, Vec<Path>) {
        let spare = std::iter::repeat_with(Path::roomy).take(limits::CANDIDATES).collect();
        (Self { rounds: 0, settled: false, paths: Vec::with_capacity(limits::CANDIDATES) }, spare)
    }

    /// Makes of this the answer in these bytes. Paths are taken from the spare ones, and given back
    /// to them.
    pub(crate) fn read(&mut self, bytes: &[u8], spare: &mut Vec<Path>) -> Result<(), Malformed> {
        let mut fields = Fields::new(bytes);
        fields.mark(*b"AN", "the mark AN")?;
        let count = fields.long_count(0..=limits::CANDIDATES, "how many returned paths (0 to 64)")?;
        self.rounds = fields.u8("how many rounds")?;
        self.settled = fields.flag("settled (0 or 1)")?;
        spare.append(&mut self.paths);
        for _ in 0..count {
            let mut path = spare.pop().unwrap_or_else(Path::roomy);
            fields.path_into(&mut path, *b"DE", "the mark DE")?;
            self.paths.push(path);
        }
        fields.end()
    }

    /// How many rounds propagation took, at most 100.
    #[must_use]
    pub fn rounds(&self) -> u8 {
        self.rounds
    }

    /// Whether the last round changed nothing.
    #[must_use]
    pub fn is_settled(&self) -> bool {
        self.settled
    }

    /// The returned paths, in order.
    #[must_use]
    pub fn paths(&self) -> &[Path] {
        &self.paths
    }

    /// The returned paths, taken out of the answer.
    #[must_use]
    pub fn into_paths(self) -> Vec<Path> {
        self.paths
    }

    /// The returned paths, one after the other.
    pub fn iter(&self) -> std::slice::Iter<'_, Path> {
        self.paths.iter()
    }
}

impl<'a> IntoIterator for &'a Answer {
    type Item = &'a Path;
    type IntoIter = std::slice::Iter<'a, Path>;

    fn into_iter(self) -> Self::IntoIter {
        self.iter()
    }
}

impl IntoIterator for Answer {
    type Item = Path;
    type IntoIter = std::vec::IntoIter<Path>;

    fn into_iter(self) -> Self::IntoIter {
        self.paths.into_iter()
    }
}
