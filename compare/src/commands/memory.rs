//! `memory`: the working memory of the stage's library.

use super::failure::Failure;
use super::output::say;
use compare::library;

pub fn run() -> Result<(), Failure> {
    if let Some(why) = library::absent() {
        return say!("library: its memory was not measured: {why}");
    }
    #[cfg(library)]
    measured::run()?;
    Ok(())
}

#[cfg(library)]
mod measured {
    use crate::commands::failure::{Failure, failed};
    use crate::commands::options::SEED;
    use crate::commands::output::say;
    use compare::generate::{class_names, generate};
    use compare::job::limits;
    use compare::library::function;
    use compare::memory::{MOST_BYTES, Stacks};
    use compare::operation::Operation;
    use compare::worst;
    use std::env;
    use std::ffi::OsString;
    use std::process::Command;

    /// Generated jobs of each class that are measured beside the worst ones.
    const EACH: u64 = 400;

    pub fn run() -> Result<(), Failure> {
        let mut stacks = Stacks::default();
        let mut most = NOTHING;
        say!("bytes of stack below the call, all that it calls included (at most {MOST_BYTES} allowed)")?;
        let names = Operation::ALL.map(|operation| format!("{:>14}", operation.name()));
        say!("{}  job", names.concat())?;
        for (name, job) in worst::jobs() {
            let taken = measure(&mut stacks, &job.to_bytes());
            show(taken, &name)?;
            most = larger(most, taken);
        }
        for class in class_names() {
            let jobs = (0..EACH).map(|number| generate(SEED, number, Some(class)).job);
            let taken = jobs.map(|job| measure(&mut stacks, &job)).fold(NOTHING, larger);
            show(taken, &format!("the most of {EACH} generated jobs, class {class}"))?;
            most = larger(most, taken);
        }
        show(most, "the most of all")?;
        show_symbols()?;
        match most.into_iter().max().unwrap_or(0) {
            most if most > MOST_BYTES => {
                Err(failed(format!("the library takes {most} bytes of stack, more than {MOST_BYTES}")))
            }
            _ => Ok(()),
        }
    }

    /// The stack of each operation.
    type Taken = [usize; Operation::ALL.len()];

    const NOTHING: Taken = [0; Operation::ALL.len()];

    fn measure(stacks: &mut Stacks, job: &[u8]) -> Taken {
        let mut out = [0; limits::THIN_BYTES];
        // SAFETY: these are the library's operations, and the stacks are far larger than they need.
        Operation::ALL.map(|operation| unsafe { stacks.measure(function(operation), job, &mut out) })
    }

    fn larger(a: Taken, b: Taken) -> Taken {
        std::array::from_fn(|n| a[n].max(b[n]))
    }

    fn show(taken: Taken, what: &str) -> Result<(), Failure> {
        say!("{}  {what}", taken.map(|bytes| format!("{bytes:>14}")).concat())
    }

    /// Names by which memory is taken from the heap or from the system.
    const ALLOCATORS: [&str; 8] =
        ["malloc", "calloc", "realloc", "aligned_alloc", "posix_memalign", "mmap", "brk", "sbrk"];

    /// Shows by the archive's symbols that there is no memory but the stack.
    fn show_symbols() -> Result<(), Failure> {
        let listed = match Command::new("nm").arg(library_file()).output() {
            Ok(listed) if listed.status.success() => String::from_utf8_lossy(&listed.stdout).into_owned(),
            _ => return say!("symbols: not listed, since nm is not here or cannot read the library"),
        };
        let outside = of_kinds(&listed, "Uwv");
        let writable = of_kinds(&listed, "BbCcDdGgSs");
        let text = |names: &[&str]| if names.is_empty() { "none".into() } else { names.join(" ") };
        say!("symbols (nm): called from outside: {}", text(&outside))?;
        say!("symbols (nm): data that can be written: {}", text(&writable))?;
        if !writable.is_empty() || outside.iter().any(|name| ALLOCATORS.contains(name)) {
            return Err(failed("the library has memory beside its stack"));
        }
        say!("so the library has no heap and no statics: the stack is all of its working memory")
    }

    /// The archive: the one that the script found, or else the one that was linked.
    fn library_file() -> OsString {
        env::var_os("SCOPE_DEPS_LIBRARY").unwrap_or_else(|| env!("LIBRARY_FILE").into())
    }

    /// The names of the symbols whose letter is one of `kinds`.
    fn of_kinds<'l>(listed: &'l str, kinds: &str) -> Vec<&'l str> {
        let symbols = listed.lines().filter_map(|line| line.rsplit_once(' '));
        symbols
            .filter(|(before, _)| before.ends_with(|kind| kinds.contains(kind)))
            .map(|(_, name)| name)
            .collect()
    }
}
