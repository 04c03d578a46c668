//! Options of the commands: a name and a value each.

use super::failure::{Failure, misused};
use compare::generate::class_names;

/// The seed where none is given.
pub const SEED: u64 = 20_261_115;

#[derive(Default)]
pub struct Options {
    pub seed: Option<u64>,
    pub count: Option<usize>,
    pub seconds: Option<u64>,
    pub first: Option<u64>,
    pub job: Option<u64>,
    pub repeat: Option<usize>,
    pub class: Option<String>,
    pub max_bytes: Option<usize>,
    pub out: Option<String>,
    pub plot: Option<String>,
    pub bin: Option<String>,
}

impl Options {
    /// Reads the options of `command`, of which only those in `known` are its own.
    pub fn read(command: &str, known: &[&str], words: &[&str]) -> Result<Self, Failure> {
        let mut options = Self::default();
        for pair in words.chunks(2) {
            let name = pair[0];
            if !known.contains(&name) {
                return Err(misused(format!("`{name}` is no option of `{command}`")));
            }
            let [_, value] = *pair else {
                return Err(misused(format!("a value is missing after `{name}`")));
            };
            options.set(name, value)?;
        }
        Ok(options)
    }

    fn set(&mut self, name: &str, value: &str) -> Result<(), Failure> {
        match name {
            "--seed" => self.seed = Some(number(name, value)?),
            "--count" => self.count = Some(number(name, value)? as usize),
            "--seconds" => self.seconds = Some(number(name, value)?),
            "--first" => self.first = Some(number(name, value)?),
            "--job" => self.job = Some(number(name, value)?),
            "--repeat" => self.repeat = Some(number(name, value)? as usize),
            "--class" => self.class = Some(class(value)?),
            "--max-bytes" => self.max_bytes = Some(number(name, value)? as usize),
            "--out" => self.out = Some(value.to_string()),
            "--plot" => self.plot = Some(value.to_string()),
            "--bin" => self.bin = Some(value.to_string()),
            _ => unreachable!("no command knows another option"),
        }
        Ok(())
    }
}

fn number(name: &str, value: &str) -> Result<u64, Failure> {
    value.parse().map_err(|_| misused(format!("`{value}` after {name} is no number from 0 upward")))
}

fn class(name: &str) -> Result<String, Failure> {
    let known = class_names().any(|class| class == name);
    if known { Ok(name.to_string()) } else { Err(misused(format!("`{name}` is no class"))) }
}
