//! A job from a file or from standard input, in any of its forms; names from a file.

use super::failure::Failure;
use super::hex;
use super::stage;
use scope_deps::notation::NotationError;
use scope_deps::{limits, Job, Names, Refusal};
use std::fs::File;
use std::io::{self, Read};

/// How a job is written down.
#[derive(Clone, Copy, Debug, PartialEq, Eq)]
pub enum Form {
    Text,
    Bytes,
    Hex,
}

/// What was read, and from where.
pub struct Input {
    pub place: String,
    pub bytes: Vec<u8>,
}

/// No text of a job is longer; a comment can be.
const MOST_BYTES: u64 = 16 << 20;

/// How UTF-16 starts where it has a byte-order mark.
const UTF_16: [&[u8]; 2] = [b"\xff\xfe", b"\xfe\xff"];

impl Input {
    /// All of the file, or of standard input where there is none.
    pub fn read(file: Option<&str>) -> Result<Self, Failure> {
        let place = file.unwrap_or("standard input").to_string();
        let mut bytes = Vec::new();
        let read = match file {
            Some(file) => File::open(file).and_then(|file| file.take(MOST_BYTES + 1).read_to_end(&mut bytes)),
            None => io::stdin().lock().take(MOST_BYTES + 1).read_to_end(&mut bytes),
        };
        match read {
            Ok(count) if count as u64 > MOST_BYTES => {
                let why = format!("this has more than {MOST_BYTES} bytes, the most that are read");
                Err(Failure::Form { place, why })
            }
            Ok(_) => Ok(Self { place, bytes }),
            Err(why) => Err(Failure::Input { place, why }),
        }
    }

    /// The job, in this form. A text may use the names.
    pub fn job(&self, form: Form, names: &Names) -> Result<Job, Failure> {
        let job = match form {
            Form::Text => return self.parsed(|text| names.read_job(text)),
            Form::Bytes => self.job_of_bytes(&self.bytes),
            Form::Hex => self.job_of_bytes(&self.bytes_of_hex()?),
        };
        Ok(job?.named(names.clone()))
    }

    /// The names.
    pub fn names(&self) -> Result<Names, Failure> {
        self.parsed(str::parse)
    }

    /// The form in which the job seems to be. A job's bytes start with `HD`, and hold zeros, which
    /// no text does.
    pub fn looks_like(&self) -> Form {
        let is_control = |byte: &u8| byte.is_ascii_control() && !byte.is_ascii_whitespace();
        let in_utf_16 = UTF_16.iter().any(|mark| self.bytes.starts_with(mark));
        if self.bytes.starts_with(b"HD") || self.bytes.iter().any(is_control) && !in_utf_16 {
            Form::Bytes
        } else {
            Form::Text
        }
    }

    fn parsed<T>(&self, read: impl Fn(&str) -> Result<T, NotationError>) -> Result<T, Failure> {
        let text = self.text()?;
        read(text).map_err(|why| Failure::Text { place: self.place.clone(), text: text.to_string(), why })
    }

    fn text(&self) -> Result<&str, Failure> {
        std::str::from_utf8(&self.bytes).map_err(|wrong| {
            let why = if UTF_16.iter().any(|mark| self.bytes.starts_with(mark)) {
                "this is not UTF-8, but UTF-16, as its byte-order mark says".to_string()
            } else {
                let at = wrong.valid_up_to();
                let line = self.bytes[..at].iter().filter(|&&byte| byte == b'\n').count() + 1;
                format!("this is not UTF-8: byte {at}, in line {line}, is {:#04x}", self.bytes[at])
            };
            Failure::Form { place: self.place.clone(), why }
        })
    }

    /// The job, or the refusal that the stage itself gives these bytes.
    fn job_of_bytes(&self, bytes: &[u8]) -> Result<Job, Failure> {
        Job::from_bytes(bytes).map_err(|own| {
            let why = stage::refusal(bytes).unwrap_or(own);
            Failure::Refused { place: self.place.clone(), why }
        })
    }

    /// The bytes of a dump.
    fn bytes_of_hex(&self) -> Result<Vec<u8>, Failure> {
        let bytes =
            hex::bytes(self.text()?).map_err(|why| Failure::Form { place: self.place.clone(), why })?;
        if bytes.len() > limits::JOB_BYTES {
            return Err(Failure::Refused { place: self.place.clone(), why: Refusal::LongJob });
        }
        Ok(bytes)
    }
}
