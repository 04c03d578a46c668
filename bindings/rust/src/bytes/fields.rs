//! Fields read from the front of some bytes.

use crate::ids::{IdentifierId, Span};
use crate::limits;
use crate::path::{Entry, Path, Property};
use crate::raw_read::{RawRead, ReadScope};
use crate::refusal::Found;
use std::fmt;
use std::ops::RangeInclusive;

/// What is wrong with a field.
#[derive(Clone, Copy, Debug, PartialEq, Eq, Hash)]
pub(crate) enum Fault {
    MissingByte,
    WrongMark,
    OutOfRange,
    ExtraByte,
    LargestStart,
}

/// An answer or a sheet that cannot be read, and the field at which that shows.
#[derive(Clone, Copy, Debug, PartialEq, Eq, Hash)]
pub struct Malformed {
    pub(crate) fault: Fault,
    pub(crate) byte: usize,
    pub(crate) field: &'static str,
    pub(crate) found: Option<Found>,
}

impl Malformed {
    /// The first byte of the field, from 0.
    #[must_use]
    pub fn byte(&self) -> usize {
        self.byte
    }
}

impl fmt::Display for Malformed {
    fn fmt(&self, f: &mut fmt::Formatter<'_>) -> fmt::Result {
        let Self { fault, byte, field, .. } = self;
        match fault {
            Fault::MissingByte => write!(f, "the bytes end within the field at byte {byte}: {field}"),
            Fault::WrongMark => write!(f, "another mark stands at byte {byte}: {field} is due"),
            Fault::OutOfRange => write!(f, "the field at byte {byte} is outside its range: {field}"),
            Fault::ExtraByte => write!(f, "byte {byte} follows the last record"),
            Fault::LargestStart => write!(f, "the field at byte {byte} is too large: {field}"),
        }
    }
}

impl std::error::Error for Malformed {}

/// The bytes, and how far they have been read.
pub(crate) struct Fields<'b> {
    bytes: &'b [u8],
    at: usize,
}

impl<'b> Fields<'b> {
    pub(crate) fn new(bytes: &'b [u8]) -> Self {
        Self { bytes, at: 0 }
    }

    pub(crate) fn at(&self) -> usize {
        self.at
    }

    pub(crate) fn take<const N: usize>(&mut self, field: &'static str) -> Result<[u8; N], Malformed> {
        let missing = Malformed { fault: Fault::MissingByte, byte: self.at, field, found: None };
        let value = self.bytes[self.at..].first_chunk::<N>().ok_or(missing)?;
        self.at += N;
        Ok(*value)
    }

    pub(crate) fn mark(&mut self, due: [u8; 2], field: &'static str) -> Result<(), Malformed> {
        let byte = self.at;
        let mark = self.take(field)?;
        if mark == due {
            Ok(())
        } else {
            Err(Malformed { fault: Fault::WrongMark, byte, field, found: Some(Found::Mark(mark)) })
        }
    }

    pub(crate) fn u8(&mut self, field: &'static str) -> Result<u8, Malformed> {
        Ok(u8::from_le_bytes(self.take(field)?))
    }

    pub(crate) fn u16(&mut self, field: &'static str) -> Result<u16, Malformed> {
        Ok(u16::from_le_bytes(self.take(field)?))
    }

    pub(crate) fn u32(&mut self, field: &'static str) -> Result<u32, Malformed> {
        Ok(u32::from_le_bytes(self.take(field)?))
    }

    pub(crate) fn u64(&mut self, field: &'static str) -> Result<u64, Malformed> {
        Ok(u64::from_le_bytes(self.take(field)?))
    }

    /// A count of two bytes.
    pub(crate) fn long_count(
        &mut self,
        range: RangeInclusive<usize>,
        field: &'static str,
    ) -> Result<usize, Malformed> {
        let byte = self.at;
        let value = self.u16(field)?.into();
        in_range(value, range, byte, field)
    }

    /// A count of one byte.
    pub(crate) fn count(
        &mut self,
        range: RangeInclusive<usize>,
        field: &'static str,
    ) -> Result<usize, Malformed> {
        let byte = self.at;
        let value = self.u8(field)?.into();
        in_range(value, range, byte, field)
    }

    pub(crate) fn flag(&mut self, field: &'static str) -> Result<bool, Malformed> {
        Ok(self.count(0..=1, field)? == 1)
    }

    /// A record of the fields of `PA`.
    pub(crate) fn path(&mut self, mark: [u8; 2], field: &'static str) -> Result<Path, Malformed> {
        let mut path = Path::new(IdentifierId(0));
        self.path_into(&mut path, mark, field)?;
        Ok(path)
    }

    /// The same, in the room of a path that is no longer needed.
    pub(crate) fn path_into(
        &mut self,
        path: &mut Path,
        mark: [u8; 2],
        field: &'static str,
    ) -> Result<(), Malformed> {
        self.mark(mark, field)?;
        self.path_fields(path)
    }

    /// The fields of `PA` from the identifier on.
    fn path_fields(&mut self, path: &mut Path) -> Result<(), Malformed> {
        let identifier = IdentifierId(self.u32("the identifier")?);
        let reactive = self.flag("reactive (0 or 1)")?;
        let span = Span(self.u32("the path's span")?);
        let count = self.count(0..=limits::ENTRIES, "how many entries (0 to 16)")?;
        path.restart(identifier, reactive, span);
        for _ in 0..count {
            path.extend([self.entry()?]);
        }
        Ok(())
    }

    /// An `RD`.
    pub(crate) fn raw_read(&mut self) -> Result<RawRead, Malformed> {
        self.mark(*b"RD", "the mark RD")?;
        let instruction = self.u32("the instruction")?;
        let range_start = self.range_start()?;
        let range_end = self.u32("the range's end")?;
        let has_scope = self.flag("has-scope (0 or 1)")?;
        let scope = (has_scope, self.u32("the scope's start")?, self.u32("the scope's end")?);
        let known_immutable = self.flag("known-immutable (0 or 1)")?;
        let mut path = Path::new(IdentifierId(0));
        self.path_fields(&mut path)?;
        let scope = ReadScope::of_fields(scope);
        Ok(RawRead { instruction, range_start, range_end, scope, known_immutable, path })
    }

    fn range_start(&mut self) -> Result<u32, Malformed> {
        let (byte, field) = (self.at, "the range's start (0 to 4294967294)");
        let start = self.u32(field)?;
        if start <= limits::RANGE_START {
            Ok(start)
        } else {
            Err(Malformed { fault: Fault::LargestStart, byte, field, found: None })
        }
    }

    fn entry(&mut self) -> Result<Entry, Malformed> {
        let optional = self.flag("an entry's optional mark (0 or 1)")?;
        let property = self.property()?;
        let span = Span(self.u32("an entry's span")?);
        Ok(Entry { property, optional, span })
    }

    /// A property's kind and value.
    pub(crate) fn property(&mut self) -> Result<Property, Malformed> {
        let is_number = self.flag("a property's kind (0 for a name, 1 for a number)")?;
        let value = self.u64("a property's value")?;
        Ok(if is_number { Property::Number(value) } else { Property::Name(value) })
    }

    pub(crate) fn end(&self) -> Result<(), Malformed> {
        if self.at == self.bytes.len() {
            Ok(())
        } else {
            Err(Malformed { fault: Fault::ExtraByte, byte: self.at, field: "the end is due", found: None })
        }
    }
}

fn in_range(
    value: usize,
    range: RangeInclusive<usize>,
    byte: usize,
    field: &'static str,
) -> Result<usize, Malformed> {
    if range.contains(&value) {
        Ok(value)
    } else {
        Err(Malformed { fault: Fault::OutOfRange, byte, field, found: Some(Found::Value(value)) })
    }
}
