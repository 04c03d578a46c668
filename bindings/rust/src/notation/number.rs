//! Whole numbers, and the numbers that are property keys.

use super::cursor::{short, Cursor};
use super::error::NotationError;
use std::fmt;

/// A whole number of at most `most`.
pub(super) fn whole(cursor: &mut Cursor, what: &str, most: u64) -> Result<u64, NotationError> {
    let start = cursor.position();
    let digits = cursor.take_while(|c| c.is_ascii_digit());
    if digits.is_empty() {
        return Err(cursor.due(what));
    }
    let value = digits.parse().ok().filter(|&value: &u64| value <= most);
    value.ok_or_else(|| {
        let message = format!("{what} is at most {most}, and {} is more", short(digits));
        NotationError::new(start, message)
    })
}

/// A whole number of 32 bits.
pub(super) fn whole_u32(cursor: &mut Cursor, what: &str) -> Result<u32, NotationError> {
    Ok(whole(cursor, what, u32::MAX.into())? as u32)
}

/// The bits of a number that stands in brackets.
pub(super) fn bits(cursor: &mut Cursor) -> Result<u64, NotationError> {
    let start = cursor.position();
    let text = cursor.take_while(|c| c.is_ascii_alphanumeric() || "+-.".contains(c));
    if text.is_empty() {
        return Err(cursor.due("a number such as 0, -1.5, 1e21, NaN, Infinity or 0x7ff8000000000001"));
    }
    bits_of(text).map_err(|why| NotationError::new(start, why))
}

fn bits_of(text: &str) -> Result<u64, String> {
    match text {
        "NaN" => return Ok(f64::NAN.to_bits()),
        "Infinity" => return Ok(f64::INFINITY.to_bits()),
        "-Infinity" => return Ok(f64::NEG_INFINITY.to_bits()),
        _ => {}
    }
    if let Some(digits) = text.strip_prefix("0x") {
        let valid = !digits.starts_with('+');
        let value = u64::from_str_radix(digits, 16).ok().filter(|_| valid);
        return value.ok_or_else(|| format!("`{}` is no 64 bits in hexadecimal digits", short(text)));
    }
    let numeric = text.chars().all(|c| c.is_ascii_digit() || "+-.eE".contains(c));
    let value = text.parse::<f64>().ok().filter(|_| numeric);
    let value = value.ok_or_else(|| format!("`{}` is no number", short(text)))?;
    if value.is_infinite() {
        return Err(format!("{} is too large for a number; Infinity is written so", short(text)));
    }
    Ok(value.to_bits())
}

/// Numbers from here on are shown with an exponent, as in JavaScript.
const LARGE: f64 = 1e21;

/// Shows bits so that [`bits`] reads them back: as a number, or as bits where a number would say
/// too little.
pub(super) fn show_bits(bits: u64, f: &mut fmt::Formatter<'_>) -> fmt::Result {
    let value = f64::from_bits(bits);
    if bits == f64::NAN.to_bits() {
        write!(f, "NaN")
    } else if value.is_nan() || value.is_subnormal() {
        write!(f, "{bits:#x}")
    } else if value.is_infinite() {
        write!(f, "{}Infinity", if value < 0.0 { "-" } else { "" })
    } else if value.trunc() == value && value.abs() < LARGE {
        write!(f, "{value}")
    } else {
        write!(f, "{value:?}")
    }
}
