//! The commands.

use super::examples;
use super::failure::Failure;
use super::help;
use super::input::{Form, Input};
use super::options::{Command, Request, Run};
use super::output;
use super::stage;
use scope_deps::Names;

const VERSION: &str = concat!("scope-deps ", env!("CARGO_PKG_VERSION"), "\n");

pub fn run(request: Request) -> Result<(), Failure> {
    match request {
        Request::Help(topic) => output::write(help::text(topic.as_deref())?.as_bytes(), None),
        Request::Version => output::write(VERSION.as_bytes(), None),
        Request::Examples(name) => output::write(examples::text(name.as_deref())?.as_bytes(), None),
        Request::Run(run) => {
            output::check_not_read(&run)?;
            let names = names(&run)?;
            let input = Input::read(run.input.as_deref())?;
            output::write(&result(&run, &input, &names)?, run.output.as_deref())
        }
    }
}

/// The names in the file that was given for them.
fn names(run: &Run) -> Result<Names, Failure> {
    match &run.names {
        None => Ok(Names::new()),
        Some(file) => Input::read(Some(file))?.names(),
    }
}

fn result(run: &Run, input: &Input, names: &Names) -> Result<Vec<u8>, Failure> {
    let job = input.job(form(run, input)?, names)?;
    match run.command {
        Command::Encode => Ok(job.into_bytes()),
        Command::Decode => Ok(job.to_string().into_bytes()),
        Command::Answer | Command::Sheet | Command::Thin | Command::Explain | Command::Draw => {
            stage::made(run, input, &job)
        }
    }
}

/// The form that was said, or else the one that it seems to be and that the command takes.
fn form(run: &Run, input: &Input) -> Result<Form, Failure> {
    let wrong = |why: &str| Failure::Form { place: input.place.clone(), why: why.to_string() };
    match (run.from, run.command, input.looks_like()) {
        _ if input.bytes.is_empty() => Err(wrong("this is empty, and holds no job")),
        (Some(form), ..) => Ok(form),
        (None, Command::Encode, Form::Bytes) => {
            Err(wrong("this is no text, but may be a job in bytes, which `decode` takes"))
        }
        (None, Command::Decode, Form::Text) if std::str::from_utf8(&input.bytes).is_err() => Ok(Form::Bytes),
        (None, Command::Decode, Form::Text) => {
            Err(wrong("this is text, and not a job in bytes; a hex dump is taken with `--from hex`"))
        }
        (None, _, form) => Ok(form),
    }
}
