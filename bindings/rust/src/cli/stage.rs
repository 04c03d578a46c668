//! What the stage's library does for the tool.

use super::failure::Failure;
use super::input::Input;
use super::many_nodes::TooMany;
use super::options::{Command, Run};
use scope_deps::{answer, raw, sheet, strict_answer, strict_sheet, Answer, Job, ManyNodes, Refusal, Sheet};

/// What the stage does by one of its propagations.
struct Operations {
    answer: fn(&Job) -> Result<Answer, ManyNodes>,
    sheet: fn(&Job) -> Result<Sheet, ManyNodes>,
    answer_bytes: fn(&[u8]) -> Result<Vec<u8>, Refusal>,
    sheet_bytes: fn(&[u8]) -> Result<Vec<u8>, Refusal>,
}

const EXISTING: Operations = Operations { answer, sheet, answer_bytes: raw::answer, sheet_bytes: raw::sheet };

const STRICT: Operations = Operations {
    answer: strict_answer,
    sheet: strict_sheet,
    answer_bytes: raw::strict_answer,
    sheet_bytes: raw::strict_sheet,
};

/// What the command makes of the job that was read.
pub fn made(run: &Run, input: &Input, job: &Job) -> Result<Vec<u8>, Failure> {
    let refused = |why: Refusal| refused(run, input, job, why);
    let stage = operations(run.strict);
    match run.command {
        Command::Answer if run.bytes => (stage.answer_bytes)(job.as_bytes()).map_err(refused),
        Command::Sheet if run.bytes => (stage.sheet_bytes)(job.as_bytes()).map_err(refused),
        Command::Answer => {
            let answer = (stage.answer)(job).map_err(|why| refused(why.into()))?;
            Ok(answer.with_names(job.names()).to_string().into_bytes())
        }
        Command::Sheet => {
            let sheet = (stage.sheet)(job).map_err(|why| refused(why.into()))?;
            Ok(sheet.with_names(job.names()).to_string().into_bytes())
        }
        Command::Thin if run.bytes => Ok(job.thin().into_bytes()),
        Command::Thin => Ok(thin_text(job).into_bytes()),
        Command::Explain => asked(run, input, job, explained),
        Command::Draw => asked(run, input, job, drawn),
        Command::Encode | Command::Decode => unreachable!("these ask nothing of the stage"),
    }
}

/// That the stage turned the job back, with what is known of its nodes where they are too many.
fn refused(run: &Run, input: &Input, job: &Job, why: Refusal) -> Failure {
    let place = input.place.clone();
    let other_refuses = || (operations(!run.strict).answer)(job).is_err();
    match why {
        Refusal::ManyNodes => {
            Failure::ManyNodes { place, nodes: TooMany::new(job, run.strict, other_refuses) }
        }
        why => Failure::Refused { place, why },
    }
}

/// Those of the one propagation or the other.
fn operations(strict: bool) -> Operations {
    if strict {
        STRICT
    } else {
        EXISTING
    }
}

/// The thin job as text, under a comment that says how many paths were dropped, if any were.
fn thin_text(job: &Job) -> String {
    let thin = job.thin();
    match paths(job) - paths(&thin) {
        0 => thin.to_string(),
        1 => format!("# 1 repeated path dropped\n{thin}"),
        dropped => format!("# {dropped} repeated paths dropped\n{thin}"),
    }
}

/// How many paths a job has.
fn paths(job: &Job) -> usize {
    job.candidates().len() + job.blocks().iter().map(|block| block.assumed().len()).sum::<usize>()
}

/// What is made of a job with its sheet and its answer.
fn asked(
    run: &Run,
    input: &Input,
    job: &Job,
    make: impl Fn(&Run, &Job, &Sheet, &Answer) -> Result<String, Failure>,
) -> Result<Vec<u8>, Failure> {
    let refused = |why: ManyNodes| refused(run, input, job, why.into());
    let stage = operations(run.strict);
    let (sheet, answer) = ((stage.sheet)(job).map_err(refused)?, (stage.answer)(job).map_err(refused)?);
    make(run, job, &sheet, &answer).map(String::into_bytes)
}

#[cfg(feature = "explain")]
fn explained(run: &Run, job: &Job, sheet: &Sheet, answer: &Answer) -> Result<String, Failure> {
    use scope_deps::explain::{explain, explain_strict};
    let explain = if run.strict { explain_strict } else { explain };
    let explanation = explain(job, sheet, answer).map_err(Failure::Mismatch)?;
    let text = if run.all { explanation.in_full().to_string() } else { explanation.to_string() };
    Ok(if explanation.leaves_out() { format!("{text}\n{LEFT_OUT}\n") } else { text })
}

/// What is said where a returned path rests on one that came past a block.
#[cfg(feature = "explain")]
const LEFT_OUT: &str = "blocks on a loop were left out on the way of a path that a returned one rests on, so that a run of control \
                        may avoid those that assume it; with `--strict`, nothing is taken over where a block would be left out";

#[cfg(not(feature = "explain"))]
fn explained(_: &Run, _: &Job, _: &Sheet, _: &Answer) -> Result<String, Failure> {
    Err(Failure::BuiltWithout("explain"))
}

#[cfg(feature = "draw")]
fn drawn(run: &Run, job: &Job, sheet: &Sheet, answer: &Answer) -> Result<String, Failure> {
    use scope_deps::draw::{draw, draw_focused, draw_focused_strict, draw_strict};
    let draw = match (run.focus, run.strict) {
        (false, false) => draw,
        (true, false) => draw_focused,
        (false, true) => draw_strict,
        (true, true) => draw_focused_strict,
    };
    draw(job, sheet, answer).map_err(Failure::Mismatch)
}

#[cfg(not(feature = "draw"))]
fn drawn(_: &Run, _: &Job, _: &Sheet, _: &Answer) -> Result<String, Failure> {
    Err(Failure::BuiltWithout("draw"))
}

/// The refusal that the stage itself gives these bytes, where it gives one.
pub fn refusal(bytes: &[u8]) -> Option<Refusal> {
    raw::answer(bytes).err()
}
