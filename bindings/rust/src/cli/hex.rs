//! Bytes from a dump: hexadecimal digits alone, as `xxd -p` prints them, or what `xxd` or `hexdump
//! -C` prints.

/// A line of a dump.
struct Line<'t> {
    /// Its number, from 1.
    number: usize,
    /// The offset in digits, where the dump has one.
    offset: Option<&'t str>,
    digits: &'t str,
}

/// The bytes, or what is wrong.
pub fn bytes(text: &str) -> Result<Vec<u8>, String> {
    let mut lines = text.lines().enumerate().map(|(at, line)| (at + 1, line.trim_end()));
    let first = text.lines().find(|line| !line.trim().is_empty()).unwrap_or_default();
    let mut dump = Dump::default();
    if xxd(first).is_some() {
        lines.try_for_each(|(number, line)| dump.take(number, line, xxd))?;
    } else if hexdump(first).is_some() {
        lines.try_for_each(|(number, line)| dump.take(number, line, hexdump_or_end))?;
    } else if is_other_dump(first) {
        return Err(
            "this dump starts with an offset as `hexdump` and `od` print it; use `hexdump -C` or `xxd`"
                .into(),
        );
    } else {
        let mut plain = lines.map(|(number, digits)| Line { number, offset: None, digits });
        plain.try_for_each(|line| dump.push(&line))?;
    }
    Ok(dump.bytes)
}

/// Offset and digits of `00000000: 4844 0100  HD..`.
fn xxd(line: &str) -> Option<(&str, &str)> {
    let (offset, rest) = line.split_once(':')?;
    let digits = rest.strip_prefix(' ').unwrap_or(rest);
    is_hexadecimal(offset).then(|| (offset, digits.split_once("  ").map_or(digits, |(digits, _)| digits)))
}

/// Offset and digits of `00000000  48 44 01 00  |HD..|`.
fn hexdump(line: &str) -> Option<(&str, &str)> {
    let (offset, rest) = line.split_once("  ")?;
    let (digits, _) = rest.split_once('|')?;
    is_hexadecimal(offset).then_some((offset, digits))
}

/// The same of a line that may be the last, which is an offset alone.
fn hexdump_or_end(line: &str) -> Option<(&str, &str)> {
    hexdump(line).or_else(|| is_hexadecimal(line).then_some((line, "")))
}

/// Whether the first line is `0000000 4448 0001`, of a dump whose numbers need not be bytes in
/// order. No job's bytes start with zeros.
fn is_other_dump(first: &str) -> bool {
    let (offset, digits) = first.trim_end().split_once(' ').unwrap_or_default();
    offset.len() >= 6 && offset.bytes().all(|byte| byte == b'0') && !digits.is_empty()
}

fn is_hexadecimal(text: &str) -> bool {
    !text.is_empty() && text.bytes().all(|byte| byte.is_ascii_hexdigit())
}

/// The bytes so far.
#[derive(Default)]
struct Dump {
    bytes: Vec<u8>,
    /// The first line's offset.
    start: Option<usize>,
    /// Where the last line starts.
    last: usize,
    /// Whether `*` stands for more lines like the last.
    repeats: bool,
}

/// No dump is taken to say that there are more bytes; no job has as many.
const MOST_BYTES: usize = 1 << 24;

impl Dump {
    /// Takes a line of a dump with offsets.
    fn take<'t>(
        &mut self,
        number: usize,
        line: &'t str,
        parts: impl Fn(&'t str) -> Option<(&'t str, &'t str)>,
    ) -> Result<(), String> {
        if line.trim().is_empty() {
            return Ok(());
        }
        if line == "*" {
            self.repeats = true;
            return Ok(());
        }
        let (offset, digits) =
            parts(line).ok_or_else(|| format!("line {number} has no offset, as the lines before it have"))?;
        self.push(&Line { number, offset: Some(offset), digits })
    }

    fn push(&mut self, line: &Line) -> Result<(), String> {
        if let Some(offset) = line.offset {
            self.reach(line.number, offset)?;
        }
        self.last = self.bytes.len();
        let parts =
            line.digits.split(|c: char| c.is_whitespace() || c == '/').filter(|part| !part.is_empty());
        for part in parts {
            self.push_digits(line.number, part)?;
        }
        Ok(())
    }

    /// Comes to a line's offset, by more lines like the last where `*` stood before it.
    fn reach(&mut self, number: usize, offset: &str) -> Result<(), String> {
        let there = usize::from_str_radix(offset, 16).ok().filter(|&there| there <= MOST_BYTES);
        let there = there.ok_or_else(|| format!("line {number} has an offset of more than {MOST_BYTES}"))?;
        let start = *self.start.get_or_insert(there);
        let last = self.bytes[self.last..].to_vec();
        if std::mem::take(&mut self.repeats) && !last.is_empty() {
            while start + self.bytes.len() < there {
                self.bytes.extend(&last);
            }
        }
        if start + self.bytes.len() == there {
            return Ok(());
        }
        let here = start + self.bytes.len();
        Err(format!("line {number} has the offset {offset}, but the lines before it come to {here:08x}"))
    }

    fn push_digits(&mut self, line: usize, digits: &str) -> Result<(), String> {
        let values: Result<Vec<u32>, String> = digits
            .chars()
            .map(|c| c.to_digit(16).ok_or_else(|| format!("line {line}: `{c}` is no hexadecimal digit")))
            .collect();
        let values = values?;
        if values.len() % 2 == 1 {
            let start: String = digits.chars().take(40).collect();
            return Err(format!("line {line}: `{start}` has an odd number of hexadecimal digits"));
        }
        self.bytes.extend(values.chunks(2).map(|pair| (pair[0] * 16 + pair[1]) as u8));
        Ok(())
    }
}
