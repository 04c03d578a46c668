//! `programs`: the programs beside the Rust and the harness.

use super::failure::{Failure, failed};
use super::options::Options;
use super::output::say;
use super::{repository, stored};
use compare::operation::Operation;
use compare::oracle::Oracle;
use compare::programs::{Input, SIZES, compare, inputs};
use std::collections::BTreeMap;
use std::path::{Path, PathBuf};

pub fn run(words: &[&str]) -> Result<(), Failure> {
    let options = Options::read("programs", &["--bin"], words)?;
    let folder = options.bin.map_or_else(|| repository("target/bin"), PathBuf::from);
    let records = stored::records()?;
    let (mut oracle, absent) = match Oracle::open() {
        Ok(oracle) => (Some(oracle), None),
        Err(why) => (None, Some(why)),
    };
    let inputs = inputs(&records, oracle.as_mut());
    for input in &inputs {
        compare_all(&folder, input)?;
    }
    for (number, operation) in Operation::ALL.into_iter().enumerate() {
        say!("programs: {} writes what is due for {}", operation.name(), tally(&inputs, number))?;
    }
    let sizes = SIZES.map(|size| size.to_string()).join(", ");
    say!("programs: {} are stored jobs, the others have {sizes} bytes", records.len())?;
    match absent {
        None => say!(
            "programs: what is due is what the Rust says, and of thin and the strict ones what the harness says"
        ),
        Some(why) => say!("programs: the comparison with the Rust did not run: {why}"),
    }
}

fn compare_all(folder: &Path, input: &Input) -> Result<(), Failure> {
    for (operation, due) in Operation::ALL.into_iter().zip(&input.due) {
        let Some(due) = due else { continue };
        let program = operation.name();
        let compared = compare(&folder.join(program), &input.job, due);
        compared.map_err(|why| failed(format!("program {program}, {}: {why}", input.name)))?;
    }
    Ok(())
}

/// How many inputs the program of this number accepts, and how many it refuses by each number.
fn tally(inputs: &[Input], program: usize) -> String {
    let mut counts: BTreeMap<String, usize> = BTreeMap::new();
    for input in inputs {
        let kind = match input.due[program].as_deref() {
            Some([b'R', b'F', number]) => format!("refused by {number}"),
            Some(_) => "accepted".to_string(),
            None => "not compared".to_string(),
        };
        *counts.entry(kind).or_default() += 1;
    }
    let counts: Vec<String> = counts.iter().map(|(kind, count)| format!("{kind}: {count}")).collect();
    format!("{} inputs ({})", inputs.len(), counts.join(", "))
}
