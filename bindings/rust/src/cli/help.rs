//! Help that teaches.

use super::failure::Failure;

const ALL: &str = "\
scope-deps reads, answers, thins, explains and draws jobs of the scope-dependency stage.

usage: scope-deps COMMAND [OPTIONS] [FILE]

  encode     a job as text -> its bytes
  decode     a job's bytes -> text
  answer     a job -> the paths that the stage returns
  sheet      a job -> the paths that each block holds in the end, and all nodes
  thin       a job -> the same job without repeated paths
  explain    a job -> why each candidate is returned as it is
  draw       a job -> a picture of it, as SVG
  examples   jobs to try
  help       help on one of these, or on the `notation`

FILE holds one job. Where it is missing or `-`, standard input is read. `answer`, `sheet`, `thin`,
`explain` and `draw` take the job as text or in bytes, and see for themselves which it is.

  -o, --output FILE    write there, and not to standard output; not to a file that is read
  --from FORM          take the job as `text`, `bytes` or `hex` (a dump of xxd or hexdump -C)
  --names FILE         names of variables and properties, for a job that does not give them
  --bytes              of `answer`, `sheet` and `thin`: write bytes, and not text
  --strict             of `answer`, `sheet`, `explain` and `draw`: by the strict propagation
  --all                of `explain`: write all that is known, step by step
  --focus              of `draw`: draw only the blocks that matter to the candidates
  -h, --help           this, or after a command help on it
  -V, --version        the tool's version
  --                   end the options, so that FILE may start with `-`

A first job: block 7 assumes that variable 1 is neither null nor undefined. What becomes of property 11
of property 10 of it?

  $ echo 'scope 7 block 7 assumes 1 candidate 1?.10.11' | scope-deps explain
  candidate 1?.10.11
   returned 1.10
      ?.10  becomes .10: 1 is known to be there in block 7; block 7 assumes it
      .11   is cut: 1.10 is not known to be there in block 7
            no block assumes 1.10

  nodes 1: 1 before the first round, 0 added by reduction

The exit status is 0 on success, 1 where the job is refused or cannot be read or written, and 2 where
the command line makes no sense. Messages go to standard error.
";

const EXAMPLES: &str = "\
usage: scope-deps examples [NAME]

Lists jobs to try, or writes the one of this name as text, to be read and answered:

  $ scope-deps examples loop | scope-deps explain
  $ scope-deps examples loop | scope-deps explain --strict
";

const NOTATION: &str = "\
A job as text:

  scope 3                           the scope block is block 3
  block 0                           blocks follow in the job's order
  block 1 after 0                   its predecessors, with commas between
    reads 6 at 4 range 0 to 1       a raw read: instruction 4 reads a property of the path 6
    assumes 5, reactive 5?.10       paths that are there when the block runs
  block 2 after 0
    assumes 5
  block 3 after 1, 2
  candidate 5@70?.10@71[0]          candidates stand last, each after `candidate` or after a comma

A path starts with a variable's number. Then its entries follow:

  .10       the property with the name 10, read plainly
  ?.10      the same, read only where the base is neither null nor undefined
  [0]       the property with the number 0; [-0], [1.5], [NaN] and [-Infinity] are others
  ?.[0]     the same, optional
  [0x5]     the number of these 64 bits, where no decimal says them well
  @71       after the variable or an entry: the span of the path or of that entry; none is 0
  reactive  before the path: its variable is reactive

A raw read has the path of which an instruction reads a property. The stage decides whether the block assumes
that path. It does, unless the variable counts as mutable at the instruction: its range is longer than one
instruction, it has a scope, the instruction is in the scope, and `immutable` does not say that the variable
never changes. The range counts by its length alone; it is the scope that is compared with the instruction.
This scope is the variable's own, and not the job's scope block. The first number of a range or a scope is in
it, and the last is not. Raw reads stand before `assumes`.

  reads 6 at 4 range 0 to 1                           assumed: the range is one instruction
  reads 6 at 4 range 0 to 9                           assumed: there is no scope
  reads 6 at 4 range 0 to 9 scope 5 to 9              assumed: instruction 4 is not in the scope
  reads 6 at 4 range 0 to 9 scope 0 to 9              not assumed, and left out
  reads 6 at 4 range 0 to 9 scope 0 to 9 immutable    assumed: it is known that 6 does not change
  reads 6 at 4 range 0 to 9 no scope 0 to 9           assumed: numbers without a scope, as bytes may have them

Names and variables are the host's numbers for them. A text may say what people call them, before or
between blocks and candidates, and then use it; answers, sheets, explanations and pictures use it too:

  name 5 athlete                    variable 5
  name .10 lastSession              the property with the name 10
  candidate athlete?.lastSession    the same as 5?.10

The bytes have no names. With `--names FILE` such lines come from a file of their own. Blanks and new
lines may stand anywhere but within a path, and a comment goes from `#` to the end of its line.
docs/NOTATION.md has the grammar.
";

const ENCODE: &str = "\
usage: scope-deps encode [-o FILE] [--names FILE] [FILE]

Writes the bytes of a job that is written as text; its names and comments are lost. A text that is no
job is refused with its line and column. `scope-deps help notation` shows how a job is written.

  $ echo 'scope 7 block 7 assumes reactive 1 candidate reactive 1@5.10@6' | scope-deps encode | xxd -p
  4844010001000700000042 ...
";

const DECODE: &str = "\
usage: scope-deps decode [-o FILE] [--from hex] [--names FILE] [FILE]

Writes as text a job that is in bytes; `encode` makes the same bytes of it again. With `--from hex` the
bytes are given as `xxd`, `xxd -p` or `hexdump -C` prints them, or in any hexadecimal digits with white
space or `/` between bytes. With `--names FILE` the text has the names in that file, which has lines
such as `name 1 athlete` and `name .10 lastSession`.

A job that the stage would refuse by 2 to 8 or by 10 has no text. The message then says the number, what
it means, and for all but 2 at which byte and in which record:

  $ echo 4844 0100 4100 | scope-deps decode --from hex
  scope-deps: standard input: refusal 5, OutOfRange: a field's value is outside its range; at byte 4,
  in the HD record: how many candidates (0 to 64), found 65
";

const ANSWER: &str = "\
usage: scope-deps answer [-o FILE] [--bytes] [--strict] [--from FORM] [--names FILE] [FILE]

Writes what the stage returns for a job: how many rounds propagation took, whether it settled, and
each returned path.

  $ echo 'scope 7 block 7 assumes reactive 1 candidate reactive 1@5.10@6' | scope-deps answer
  rounds 1, settled
  returned reactive 1@6.10@6

Where blocks are on a loop, a block may hold a path that a run of control avoids, and a returned path may
then throw on that run. With `--strict`, a block takes paths over from the blocks before it, or after it,
only where all of these are finished. So no returned path throws, loops or not, on a run from a block
with no predecessor, by way of the scope block, to one with no successor, where what the run's blocks
assume is there. Without loops both are the same. With loops a returned path may be shorter than without
`--strict`, or, where optional chains are assumed, longer; and refusal 9 may be met by one of them alone.

  $ scope-deps examples loop | scope-deps answer
  rounds 2, settled
  returned beat@31.rate@31
  $ scope-deps examples loop | scope-deps answer --strict
  rounds 1, settled
  returned beat@30
";

const SHEET: &str = "\
usage: scope-deps sheet [-o FILE] [--bytes] [--strict] [--from FORM] [--names FILE] [FILE]

Writes what propagation arrived at: the nodes of all paths, by number, and the paths that each block
holds, that is those known in it to be neither null nor undefined.

Each path that is assumed, or that an assumed one starts with, has one node, however often it is there;
candidates have none. These nodes are there before the first round. The others are added by reduction. It
goes along a path that a block holds, entry by entry, and makes a `?.` plain where the block holds the path
before it, with what is plain by then, as a path of its own: where it holds 1 and 1?.10, this becomes 1.10,
and where it holds 1.11 and 1?.10, it does not. The new path takes the place of the other, and its nodes are
made where they are missing. The second line counts both, and each node that was added says so. 512 nodes
are the most that a job can have; one with more is refused by 9, and the message tells how many there are
before the first round, and so how many at least were added.

  $ echo 'scope 0 block 0 assumes 1, 1?.10' | scope-deps sheet
  rounds 2, settled
  nodes 3: 2 before the first round, 1 added by reduction
  node 0 1
  node 1 1?.10
  node 2 1.10, added by reduction
  block 0 holds 1, 1.10

With `--strict` it is the sheet of the strict propagation; `scope-deps help answer` says how that differs.
";

const THIN: &str = "\
usage: scope-deps thin [-o FILE] [--bytes] [--from FORM] [--names FILE] [FILE]

Writes a job without repeats: in each block, and among the candidates, a path is dropped where an earlier
one has the same variable and the same entries, optional marks included. Spans and `reactive` may differ;
the first keeps its own. Raw reads are compared with nothing, and all stay. The thin job has the same answer
and the same sheet, with `--strict` too; where these are refused by 9, so are those of the thin job. In bytes,
which is what a cache stores, the thin job of a thin job is the same again.

It is written as text, or with `--bytes` in bytes. A text keeps its names and loses its comments; where paths
were dropped, a comment says how many.

  $ echo 'scope 7 block 7 assumes 1, 2, reactive 1@9 candidate 1.10@5, 1?.10, 1.10@6' | scope-deps thin
  # 2 repeated paths dropped
  scope 7
  block 7
    assumes 1
    assumes 2
  candidate 1.10@5
  candidate 1?.10
";

const EXPLAIN: &str = "\
usage: scope-deps explain [--all] [--strict] [-o FILE] [--from FORM] [--names FILE] [FILE]

Says for each candidate why its returned path is what it is. An entry reads a property of its base. It
is returned plain where the base is known to be there, neither null nor undefined, in the scope block;
otherwise an optional entry stays optional, and at a plain one the path is cut. A block has what it
assumes, and what all blocks have that control comes from, or all that it goes on to. So a cut has one
of these reasons: no block assumes the base, or it stopped on the way, at a block beside which another
does not have it. On a loop, blocks that are not finished are left out. With `--strict`, nothing is taken
over where one would be left out, and that is a reason for a cut, too. Where a block reads a property of the
base, but that read is not kept, since the variable counts as mutable there, that is told as well, and whether
the base would be known if that one read were kept.

  $ echo 'scope 2 block 0 assumes 1 block 1 after 0 assumes 1.10 block 2 after 0, 1 candidate 1.10.11' | scope-deps explain
  candidate 1.10.11
   returned 1.10
      .10  stays plain: 1 is known to be there in block 2; it comes from block 0, which assumes it
      .11  is cut: 1.10 is not known to be there in block 2
           block 1 assumes 1.10, but control can also come to block 2 from block 0, which does not have it

  nodes 2: 2 before the first round, 0 added by reduction

  $ echo 'scope 1 block 0 assumes 1 block 1 after 1, 0 candidate 1.10' | scope-deps explain --strict
  strict propagation: a block takes paths over from the blocks before it, or after it, only where all of these are finished

  candidate 1.10
   returned 1
      .10  is cut: 1 is not known to be there in block 1
           block 0 assumes 1, but block 1 takes nothing over from the blocks before it, since it is itself one of them and not finished

  nodes 1: 1 before the first round, 0 added by reduction

  $ echo 'scope 0 block 0 reads 1 at 3 range 0 to 2 scope 0 to 9 candidate 1.10' | scope-deps explain
  candidate 1.10
   returned 1
      .10  is cut: 1 is not known to be there in block 0
           no block assumes 1
           block 0 reads a property of 1 at instruction 3, but 1 counts as mutable there: its range 0 to 2 is \
longer than one instruction, and instruction 3 is in its scope, 0 to 9; if it were kept, 1 would be known in block 0

  nodes 0: 0 before the first round, 0 added by reduction

The end says how many nodes there were before the first round, and how many reduction added, with the
paths of these, or the first three where there are more than four; `scope-deps help sheet` says what
nodes are. With `--all` it has all of them, the round and the block in which each was added, and from which
assumed path it comes. That is one place and one way; without them the node may still be added, in another
block or by another way. A round is a walk forward, in which each block takes paths over from the blocks
before it, and one backward, in which it takes them over from those after it.

  $ echo 'scope 1 block 0 assumes 1 block 1 after 0 assumes 1?.10' | scope-deps explain --all
  the job has no candidate, so no path is returned

  nodes 3: 2 before the first round, 1 added by reduction
      1.10 in round 1, forward walk: block 1 made 1?.10, which it assumes, into 1.10, since it had 1

  --all       every block that has such a base, every block at which it stopped, in sections with numbers
              every step by which a path came to a block, and where each added node was added
  --strict    the answer by the strict propagation; `scope-deps help answer` says how that differs

All this is from a second run of the propagation, with a trace. Where that does not end with what the
library says, nothing is explained, and the exit status is 1.
";

const DRAW: &str = "\
usage: scope-deps draw [-o FILE.svg] [--focus] [--strict] [--from FORM] [--names FILE] [FILE]

Draws a job, with its sheet and its answer, as one SVG file that a browser shows: the blocks in layers
from the first down, arrows for control, those that close a loop dashed; in each block the paths that it
assumes and those that it holds in the end; beside the scope block each candidate with what is returned
of it and where it is cut. Under `reads` stand the paths of which instructions read a property, with these
instructions; reads that are not kept are struck through, under `not kept`. The reasons are there under the
pointer. A block that holds
what its only predecessor holds says so. Under the title stands how many nodes there were before the
first round, and how many reduction added. That line names those that were added, or some of them where
they are many or long, and then all are there under the pointer. The box of the block that added such a
node has its path under `adds`, and a `+` stands before that path wherever a box names it. Where that
block is not drawn, the line says so.

Under the pointer, a block's arrows are lit and the others dimmed; after a click they stay so. Paths for
which a box has no more lines are there under the pointer. On a dark screen the picture is dark.

With `--focus`, only the blocks are drawn that matter to the candidates: those that bring a known path
to the scope block, and those that stop one. Where others are left out, it says how many. With `--strict`,
sheet and answer are those of the strict propagation, and the title says so.

  $ scope-deps draw -o job.svg job.txt
  $ scope-deps draw --focus -o job.svg job.txt
";

/// The help on a topic, or on all.
pub fn text(topic: Option<&str>) -> Result<&'static str, Failure> {
    match topic {
        None => Ok(ALL),
        Some("notation") => Ok(NOTATION),
        Some("encode") => Ok(ENCODE),
        Some("decode") => Ok(DECODE),
        Some("answer") => Ok(ANSWER),
        Some("sheet") => Ok(SHEET),
        Some("thin") => Ok(THIN),
        Some("explain") => Ok(EXPLAIN),
        Some("draw") => Ok(DRAW),
        Some("examples") => Ok(EXAMPLES),
        Some(other) => Err(Failure::Misused(format!("there is no help on `{other}`"))),
    }
}
