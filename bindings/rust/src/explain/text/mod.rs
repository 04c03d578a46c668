//! An explanation as text: in short, or in full.

mod known;
mod nodes;
mod sections;
mod show;
mod unknown;

use super::{Base, End, Explanation, Reason};
use crate::path::{Entry, Path};
use crate::replay::Propagation;
use known::known;
use sections::Sections;
#[cfg(feature = "draw")]
pub(crate) use show::{counts_as_mutable, some_listed, why_kept};
use show::{for_count, show_entry, show_path};
use std::fmt;
use unknown::unknown;
#[cfg(feature = "draw")]
pub(crate) use unknown::would_do;

/// What stands before all else where the propagation is the strict one.
const STRICT: &str = "strict propagation: a block takes paths over from the blocks before it, or after it, \
                      only where all of these are finished";

/// An explanation in full: all blocks at which a path stopped, every step by which a path came to a
/// block, and where each node was added.
#[derive(Clone, Copy, Debug)]
pub struct InFull<'a>(&'a Explanation);

impl Explanation {
    /// The explanation in full.
    ///
    /// ```
    /// use scope_deps::{answer, explain::explain, sheet, Job};
    ///
    /// let job: Job = "scope 1 block 0 assumes 1 block 1 after 0 candidate 1.10.11".parse()?;
    /// let explanation = explain(&job, &sheet(&job)?, &answer(&job)?)?;
    /// assert_eq!(explanation.in_full().to_string(), "\
    /// candidate 1.10.11
    ///  returned 1.10
    ///     .10  stays plain: 1 is known to be there in block 1 [1]
    ///     .11  is cut: 1.10 is not known to be there in block 1
    ///          no block assumes 1.10
    ///
    /// [1] how 1 came there
    ///     block 0 assumes 1
    ///     block 1 took 1 over from block 0, the only block that control comes from
    ///
    /// nodes 1: 1 before the first round, 0 added by reduction
    /// ");
    /// # Ok::<(), Box<dyn std::error::Error>>(())
    /// ```
    #[must_use]
    pub fn in_full(&self) -> InFull<'_> {
        InFull(self)
    }
}

impl fmt::Display for Explanation {
    fn fmt(&self, f: &mut fmt::Formatter<'_>) -> fmt::Result {
        let text = Text { explanation: self, sections: None };
        text.candidates(f)?;
        writeln!(f, "\n{}", nodes::in_short(&text))
    }
}

impl fmt::Display for InFull<'_> {
    fn fmt(&self, f: &mut fmt::Formatter<'_>) -> fmt::Result {
        let text = Text { explanation: self.0, sections: Some(Sections::new(self.0)) };
        text.candidates(f)?;
        text.sections.iter().try_for_each(|sections| sections.write(f))?;
        writeln!(f)?;
        nodes::in_full(&text).iter().try_for_each(|line| writeln!(f, "{line}"))
    }
}

/// An explanation on its way into text.
struct Text<'a> {
    explanation: &'a Explanation,
    /// The steps, in sections that are referred to, where all is shown.
    sections: Option<Sections<'a>>,
}

impl Text<'_> {
    /// A path, by its names.
    fn path(&self, path: &Path) -> String {
        show_path(path, &self.explanation.names)
    }

    fn entry(&self, entry: &Entry) -> String {
        show_entry(entry, &self.explanation.names)
    }

    fn candidates(&self, f: &mut fmt::Formatter<'_>) -> fmt::Result {
        if self.explanation.propagation == Propagation::Strict {
            writeln!(f, "{STRICT}\n")?;
        }
        if self.explanation.reasons.is_empty() {
            writeln!(f, "the job has no candidate, so no path is returned")?;
            self.not_kept(f)?;
        }
        for (place, reason) in self.explanation.reasons.iter().enumerate() {
            let gap = if place > 0 { "\n" } else { "" };
            writeln!(f, "{gap}candidate {}", self.path(&reason.candidate))?;
            writeln!(f, " returned {}", self.path(&reason.returned))?;
            self.lines(reason).iter().try_for_each(|line| writeln!(f, "    {line}"))?;
        }
        Ok(())
    }

    /// How many raw reads are not kept, where there is no candidate to which one could matter.
    fn not_kept(&self, f: &mut fmt::Formatter<'_>) -> fmt::Result {
        match self.explanation.reads_not_kept {
            0 => Ok(()),
            count => writeln!(f, "{count} raw {} not kept", for_count(count, "read is", "reads are")),
        }
    }

    /// Lines for each entry that is returned, and for the first that is not: the first line has the
    /// entry in front.
    fn lines(&self, reason: &Reason) -> Vec<String> {
        let entries = reason.candidate.entries().iter().map(|entry| self.entry(entry));
        let mut said: Vec<Vec<String>> =
            (0..reason.bases.len()).map(|level| self.kept(reason, level)).collect();
        said.extend(self.end(reason));
        if said.is_empty() {
            return vec!["the variable itself is returned".to_string()];
        }
        let width = entries.clone().take(said.len()).map(|entry| entry.chars().count()).max().unwrap_or(0);
        let in_front = |entry: String| std::iter::once(entry).chain(std::iter::repeat(String::new()));
        let lines = entries.zip(said).flat_map(|(entry, said)| in_front(entry).zip(said).collect::<Vec<_>>());
        lines.map(|(entry, line)| format!("{entry:width$}  {line}")).collect()
    }

    fn kept(&self, reason: &Reason, level: usize) -> Vec<String> {
        let (own, returned) = (reason.candidate.entries()[level], reason.returned.entries()[level]);
        let lines = match &reason.bases[level] {
            Base::Known(by) => known(self, &reason.returned.prefix(level), by),
            Base::Unknown(why) => unknown(self, why),
        };
        after(&self.change(own, returned), lines)
    }

    fn change(&self, own: Entry, returned: Entry) -> String {
        match (own.optional, returned.optional) {
            (true, false) => format!("becomes {}", self.entry(&Entry { optional: false, ..own })),
            (_, true) => "stays optional".to_string(),
            (false, false) => "stays plain".to_string(),
        }
    }

    /// Why the first entry that is not returned is not, if there is one.
    fn end(&self, reason: &Reason) -> Option<Vec<String>> {
        match &reason.end {
            End::Whole => None,
            End::Cut { why, .. } => Some(after("is cut", unknown(self, why))),
            End::Covered { by } => {
                let other = &self.explanation.reasons[*by];
                let ends = if other.end == End::Whole { "ends" } else { "is cut" };
                let (candidate, at) = (self.path(&other.candidate), self.path(&reason.returned));
                Some(vec![format!(
                    "is not returned: candidate {candidate} {ends} at {at}, and depending on that is enough"
                )])
            }
        }
    }
}

/// The lines, with what they are the reason of before the first.
fn after(what: &str, mut lines: Vec<String>) -> Vec<String> {
    lines[0].insert_str(0, &format!("{what}: "));
    lines
}
