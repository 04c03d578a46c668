//! Help on the commands.

use super::failure::{Failure, misused};
use super::output;
use compare::generate::class_names;

const ALL: &str = "\
compare/oracle runs the Rust of the scope-dependency stage, and compares the proved stage with it.

usage: compare/oracle COMMAND [OPTIONS]

  answer          a job on standard input -> what the Rust answers
  sheet           a job on standard input -> its sheet by the Rust
  thin            a job on standard input -> the job without repeated paths
  strict_answer   a job on standard input -> its answer by the strict propagation
  strict_sheet    a job on standard input -> its sheet by the strict propagation
  nodes           a job on standard input -> how many nodes there are before the first round and at the end
  check           the stored list beside the Rust
  compare         the stage's library beside the Rust, on fixed and on generated jobs
  programs        the stage's programs beside the Rust
  memory          the working memory of the stage's library
  bench           the time that the library and the Rust take
  generate        generated jobs, with what the Rust says of them
  store           the stored list, made anew
  help            help on one of these, as after the command `--help`

It works from any directory. Where the stage's library or programs are needed, and are missing or belong
to other sources, they are proved first. SCOPE_DEPS_LIBRARY may name a library that is ready.

The Rust is looked for at ../shared/docs/src beside the repository, or where SCOPE_DEPS_REFERENCE points.

The exit status is 0 on success, 1 where something fails or differs, 2 where the command line makes no
sense, and 3 where a command cannot do without the Rust and it is absent.
";

const ANSWER: &str = "\
usage: compare/oracle answer < JOB

Writes what the Rust answers to the job on standard input, as program `answer` does: the answer's bytes, or
RF and the number of the refusal. docs/FORMAT.md has the bytes.

  $ bin/scope-deps encode examples/diamond.job | compare/oracle answer | xxd
";

const SHEET: &str = "\
usage: compare/oracle sheet < JOB

Writes the sheet of the job on standard input by the Rust, as program `sheet` does: the sheet's bytes, or
RF and the number of the refusal. docs/FORMAT.md has the bytes.

  $ bin/scope-deps encode examples/diamond.job | compare/oracle sheet | xxd
";

const THIN: &str = "\
usage: compare/oracle thin < JOB

Writes the thin job of the job on standard input, as program `thin` does: the job's bytes without repeated
paths, or RF and the number of the refusal. Raw reads stay as they are. The Rust has no such writer, so this is the harness's own; which
paths are the same is for the Rust to say (`are_equal_paths`), or where it is absent for the harness too.

  $ bin/scope-deps encode examples/diamond.job | compare/oracle thin | xxd
";

const STRICT_ANSWER: &str = "\
usage: compare/oracle strict_answer < JOB

Writes the answer of the job on standard input by the strict propagation, as program `strict_answer` does: the
answer's bytes, or RF and the number of the refusal. The Rust has no such propagation, so this is the
harness's own: the Rust's text, with the step exchanged by which neighbours join a block.

  $ bin/scope-deps encode examples/loop.job | compare/oracle strict_answer | xxd
";

const STRICT_SHEET: &str = "\
usage: compare/oracle strict_sheet < JOB

Writes the sheet of the job on standard input by the strict propagation, as program `strict_sheet` does: the
sheet's bytes, or RF and the number of the refusal. As for `strict_answer`, the propagation is the harness's own.

  $ bin/scope-deps encode examples/loop.job | compare/oracle strict_sheet | xxd
";

const NODES: &str = "\
usage: compare/oracle nodes < JOB

Runs the Rust on the job on standard input and prints `nodes.len()` of its registry before the first round, when
all assumed paths are entered, and at the end, and how many nodes reduction made, in all and in the first round.
The second line has the same by the strict propagation. The counts before the first round are those of the sheets.
A job that 9 refuses is counted all the same; of one that another number refuses there is nothing to count, and
the exit status is 1.

  $ bin/scope-deps encode examples/added-nodes.job | compare/oracle nodes
  existing propagation: nodes.len() is 4 before the first round and 6 at the end; reduction made 2, 2 of them in the first round
  strict propagation: nodes.len() is 4 before the first round and 6 at the end; reduction made 2, 2 of them in the first round
";

const CHECK: &str = "\
usage: compare/oracle check

Compares each record of compare/stored/jobs.bin with what the Rust says now, and its thin job, strict answer
and strict sheet with what the harness says. Where the Rust is absent, the records are read, and their refusals
compared with those of the harness's reader, thin jobs with those of its writer, and strict answers and sheets
of jobs without loops with the existing ones. In each sheet the nodes before the first round must be those of the
job's assumed paths, and the others such as reduction makes of these.
";

const STORE: &str = "\
usage: compare/oracle store

Makes compare/stored/jobs.bin and index.txt anew, from 60,000 generated jobs of a fixed seed. The list
changes where the generator was changed, and not otherwise.
";

const GENERATE: &str = "\
usage: compare/oracle generate [--seed S] [--count N] [--first F] [--class C] [--max-bytes B] [--out FILE]
       compare/oracle generate --job N [--seed S] [--class C] [--out FILE]

The first form writes a list of jobs, each with its answer and its sheet by the Rust, its thin job, and its
strict answer and sheet, in the format of compare/stored. The second writes the bytes of one job: job N is the
one that `compare` calls by this number.

  --seed S        another seed gives other jobs; 20261115 where it is missing
  --count N       how many jobs; 100 where it is missing
  --first F       the number of the first; 0 where it is missing
  --class C       jobs of this class only
  --max-bytes B   pass over longer jobs
  --out FILE      write there, and not to standard output

  $ compare/oracle generate --job 3 --out job.bin
  $ bin/scope-deps explain job.bin
";

const COMPARE: &str = "\
usage: compare/oracle compare [--seed S] [--count N] [--seconds T] [--class C] [--first F]

Compares the stage's library with the Rust, byte for byte, on a fixed list of jobs and then on generated
ones: answers and sheets with the Rust, thin jobs and strict answers and sheets with the harness's own. On jobs
without loops the harness's strict answers and sheets must be the Rust's. A thin job must have the answers and
the sheets of its job, in the library, in the Rust and in the harness, and be its own thin job. `nodes.len()` of the
Rust before the first round must be the number of distinct prefixes of the assumed paths, and the raw reads that the
Rust keeps must be those that the harness keeps. At a difference it says which job, keeps it in a file in the
current directory and exits with 1. At the end it prints how many jobs there were of each kind, how many raw reads
were kept, and where their nodes come from.

  --seed S      another seed gives other jobs; 20261115 where it is missing
  --count N     how many generated jobs; 20000 where it and --seconds are missing
  --seconds T   stop after this time
  --class C     jobs of this class only
  --first F     the number of the first; 0 where it is missing
";

const PROGRAMS: &str = "\
usage: compare/oracle programs [--bin DIR]

Runs the programs `answer`, `sheet`, `thin`, `strict_answer` and `strict_sheet` on every stored job, and on
inputs of 0, 1, 32,768, 32,769, 65,536, 65,537 and 70,000 bytes. What the first two write must be what the Rust
says, and what the others write what the harness says, refusals as RF and the number included.

  --bin DIR   the programs are there, and not in target/bin
";

const MEMORY: &str = "\
usage: compare/oracle memory

Measures the stack that the stage's library takes, on the worst jobs known and on generated ones, and lists
the library's symbols to show that it has no other memory. More than 65,536 bytes are a failure.
";

const BENCH: &str = "\
usage: compare/oracle bench [--seed S] [--repeat R] [--plot FILE]

Times the stage's library and the Rust on the same jobs. docs/PERFORMANCE.md says what is counted. For strict
answers and thin jobs, which the Rust does not make, the harness's own stand in its place.

  --seed S      another seed gives other jobs; 20261115 where it is missing
  --repeat R    how often each job is timed, the least counting; 15 where it is missing
  --plot FILE   draw the times into this file, as SVG
";

const TOPICS: [(&str, &str); 13] = [
    ("answer", ANSWER),
    ("sheet", SHEET),
    ("thin", THIN),
    ("strict_answer", STRICT_ANSWER),
    ("strict_sheet", STRICT_SHEET),
    ("nodes", NODES),
    ("check", CHECK),
    ("compare", COMPARE),
    ("programs", PROGRAMS),
    ("memory", MEMORY),
    ("bench", BENCH),
    ("generate", GENERATE),
    ("store", STORE),
];

/// Shows the help on a command, or on all.
pub fn show(topic: Option<&str>) -> Result<(), Failure> {
    let text = match topic {
        None => ALL,
        Some(topic) => match TOPICS.iter().find(|(name, _)| *name == topic) {
            Some((_, text)) => text,
            None => return Err(misused(format!("there is no help on `{topic}`"))),
        },
    };
    output::bytes(text.as_bytes())?;
    if text.contains("--class") {
        let classes: Vec<&str> = class_names().collect();
        output::bytes(format!("\nClasses: {}.\n", classes.join(", ")).as_bytes())?;
    }
    Ok(())
}
