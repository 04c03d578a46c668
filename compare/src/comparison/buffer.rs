//! An out buffer filled with a pattern, so that each byte written is seen.

use super::returned_number;
use crate::oracle::Said;
use crate::prng::Prng;

/// Bytes before and after the out buffer that must stay too.
const BESIDE: usize = 64;
/// The pattern starts at a different place each time.
const SHIFTS: usize = 1021;

#[derive(Default)]
pub struct Buffer {
    bytes: Vec<u8>,
    pattern: Vec<u8>,
    shift: usize,
    start: usize,
    length: usize,
}

impl Buffer {
    /// The out buffer of a call, at a changing alignment. `number` chooses the pattern.
    pub fn fill(&mut self, length: usize, number: usize) -> &mut [u8] {
        (self.length, self.shift, self.start) = (length, number * 7 % SHIFTS, BESIDE + number % 16);
        let whole = self.start + length + BESIDE;
        self.grow_pattern(whole + SHIFTS);
        self.bytes.resize(whole, 0);
        self.bytes.copy_from_slice(&self.pattern[self.shift..][..whole]);
        &mut self.bytes[self.start..][..length]
    }

    fn grow_pattern(&mut self, length: usize) {
        if self.pattern.len() < length {
            let mut prng = Prng::new(1, 0);
            self.pattern = (0..length).map(|_| prng.below(256) as u8).collect();
        }
    }

    /// Compares what a call returned and wrote with what is due, which `judge` says.
    pub fn check(&self, said: &Said, returned: i64, judge: &str) -> Result<(), String> {
        let due = returned_number(said);
        if returned != due {
            return Err(format!("returned {returned}, {judge} says {due}"));
        }
        let written = said.as_deref().unwrap_or(&[]);
        let (before, rest) = self.bytes.split_at(self.start);
        let (out, after) = rest.split_at(written.len());
        if let Some(place) = first_difference(out, written) {
            return Err(format!("byte {place} is {}, {judge} says {}", out[place], written[place]));
        }
        let pattern = &self.pattern[self.shift..];
        if let Some(place) = first_difference(before, pattern) {
            return Err(format!("a byte {} before the buffer was written", self.start - place));
        }
        if let Some(place) = first_difference(after, &pattern[self.start + written.len()..]) {
            let place = written.len() + place;
            return Err(format!("byte {place} of a buffer of {} was touched", self.length));
        }
        Ok(())
    }
}

/// The first place at which `a` differs from the start of `b`, which is no shorter.
fn first_difference(a: &[u8], b: &[u8]) -> Option<usize> {
    if *a == b[..a.len()] { None } else { a.iter().zip(b).position(|(a, b)| a != b) }
}
