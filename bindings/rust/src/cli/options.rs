//! The command line.

use super::failure::Failure;
use super::input::Form;

#[derive(Clone, Copy, Debug, PartialEq, Eq)]
pub enum Command {
    Encode,
    Decode,
    Answer,
    Sheet,
    Thin,
    Explain,
    Draw,
}

pub const COMMANDS: [(&str, Command); 7] = [
    ("encode", Command::Encode),
    ("decode", Command::Decode),
    ("answer", Command::Answer),
    ("sheet", Command::Sheet),
    ("thin", Command::Thin),
    ("explain", Command::Explain),
    ("draw", Command::Draw),
];

const FORMS: [(&str, Form); 3] = [("text", Form::Text), ("bytes", Form::Bytes), ("hex", Form::Hex)];

/// What is asked for.
#[derive(Debug, PartialEq, Eq)]
pub enum Request {
    /// Help on this, or on all.
    Help(Option<String>),
    /// The tool's name and version.
    Version,
    /// The example of this name, or the list of all.
    Examples(Option<String>),
    Run(Run),
}

/// A command with its options.
#[derive(Debug, PartialEq, Eq)]
pub struct Run {
    pub command: Command,
    /// The file to read; `None` is standard input.
    pub input: Option<String>,
    /// The file to write; `None` is standard output.
    pub output: Option<String>,
    /// How the job is written down.
    pub from: Option<Form>,
    /// The file with names.
    pub names: Option<String>,
    /// Whether an answer, a sheet or a thin job is written in bytes.
    pub bytes: bool,
    /// Whether the propagation is the strict one.
    pub strict: bool,
    /// Whether an explanation is written in full.
    pub all: bool,
    /// Whether a picture has only the blocks that matter to the candidates.
    pub focus: bool,
}

/// The words of the command line.
pub fn words() -> Result<Vec<String>, Failure> {
    let words = std::env::args_os().skip(1).map(|word| {
        word.into_string().map_err(|word| misused(format!("{} is not in UTF-8", word.to_string_lossy())))
    });
    words.collect()
}

fn misused(why: impl Into<String>) -> Failure {
    Failure::Misused(why.into())
}

impl Request {
    pub fn read(words: &[String]) -> Result<Self, Failure> {
        let words: Vec<&str> = words.iter().map(String::as_str).collect();
        match words[..] {
            [] => Err(misused("a command is missing")),
            ["--help" | "-h" | "help"] => Ok(Self::Help(None)),
            ["--version" | "-V"] => Ok(Self::Version),
            ["help", topic] => Ok(Self::Help(Some(topic.to_string()))),
            ["examples", ref rest @ ..] if asks_for_help(rest) => {
                Ok(Self::Help(Some("examples".to_string())))
            }
            ["examples"] => Ok(Self::Examples(None)),
            ["examples", name] => Ok(Self::Examples(Some(name.to_string()))),
            ["examples", ..] => Err(misused("`examples` takes one name")),
            [command, ref rest @ ..] => match COMMANDS.iter().find(|(name, _)| *name == command) {
                Some(_) if asks_for_help(rest) => Ok(Self::Help(Some(command.to_string()))),
                Some((_, command)) => Run::read(*command, rest).map(Self::Run),
                None => Err(misused(format!("`{command}` is no command"))),
            },
        }
    }
}

/// Whether help is among the options, which end at `--`.
fn asks_for_help(words: &[&str]) -> bool {
    words.iter().take_while(|word| **word != "--").any(|word| matches!(*word, "--help" | "-h"))
}

impl Run {
    fn read(command: Command, words: &[&str]) -> Result<Self, Failure> {
        let mut run = Self {
            command,
            input: None,
            output: None,
            from: None,
            names: None,
            bytes: false,
            strict: false,
            all: false,
            focus: false,
        };
        let (mut files, mut options_end) = (Vec::new(), false);
        let mut words = words.iter().copied();
        while let Some(word) = words.next() {
            match word {
                file if options_end || file == "-" || !file.starts_with('-') => files.push(file),
                "--" => options_end = true,
                option => run.take(option, &mut words)?,
            }
        }
        match files[..] {
            [] | ["-"] => Ok(run),
            [file] => Ok(Self { input: Some(file.to_string()), ..run }),
            [_, file, ..] => Err(misused(format!("one file is read, but `{file}` follows another"))),
        }
    }

    /// Takes an option, and its value from the same word or from the next.
    fn take<'w>(&mut self, word: &'w str, rest: &mut impl Iterator<Item = &'w str>) -> Result<(), Failure> {
        let (option, given) = split(word);
        let mut value = || {
            let value = given.or_else(|| rest.next()).filter(|value| !value.is_empty());
            value.ok_or_else(|| misused(format!("a value is missing after `{option}`")))
        };
        let asks_to_show = matches!(self.command, Command::Answer | Command::Sheet | Command::Thin);
        let propagates =
            matches!(self.command, Command::Answer | Command::Sheet | Command::Explain | Command::Draw);
        match option {
            "-o" | "--output" => self.output = Some(value()?.to_string()),
            "--from" => self.from = Some(form(value()?)?),
            "--names" => self.names = Some(value()?.to_string()),
            "--bytes" if asks_to_show && given.is_none() => self.bytes = true,
            "--strict" if propagates && given.is_none() => self.strict = true,
            "--all" if self.command == Command::Explain && given.is_none() => self.all = true,
            "--focus" if self.command == Command::Draw && given.is_none() => self.focus = true,
            _ => return Err(misused(format!("`{word}` is no option of this command"))),
        }
        Ok(())
    }
}

/// An option, and the value in the same word: `--output=F` and `-oF`.
fn split(word: &str) -> (&str, Option<&str>) {
    match (word.split_once('='), word.strip_prefix("-o")) {
        (_, Some(value)) => ("-o", Some(value).filter(|value| !value.is_empty())),
        (Some((option, value)), _) if option.starts_with("--") => (option, Some(value)),
        _ => (word, None),
    }
}

fn form(name: &str) -> Result<Form, Failure> {
    let known = FORMS.iter().find(|(form, _)| *form == name);
    known.map(|(_, form)| *form).ok_or_else(|| misused(format!("`{name}` is no form: text, bytes or hex is")))
}
