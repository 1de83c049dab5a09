//! Why a line for a device is bad.

use crate::lines::{number, MAX_NAME_BYTES};

/// The members of the group `device line bad`.
pub const BAD: &str = "missing field, further field, number out of range, number, \
     odd count of digits, digits, name over 300 bytes, the 65th";

/// Why this bad line is bad, if it is one for a device; the 65th is one that
/// would be good else.
pub fn bad(line: &[u8]) -> Option<String> {
    let fields: Vec<&[u8]> = line
        .strip_prefix(b"device")?
        .split(|byte| *byte == b' ')
        .collect();
    if !fields[0].is_empty() {
        return None;
    }
    let numbers = fields[1..].iter().take(3);
    let bad_number = numbers.clone().find(|field| number(field).is_none());
    let digits = fields.get(4).copied();
    let why = match (fields.len(), bad_number, digits) {
        (..=3, _, _) => "missing field",
        (_, Some(field), _) if is_high(field) => "number out of range",
        (_, Some(_), _) => "number",
        (6.., _, _) => "further field",
        (_, _, Some(digits)) if !is_hexadecimal(digits) => "digits",
        (_, _, Some(digits)) if digits.len() % 2 != 0 => "odd count of digits",
        (_, _, Some(digits)) if digits.len() > 2 * MAX_NAME_BYTES => "name over 300 bytes",
        _ => "the 65th",
    };
    Some(format!("device line bad {why}"))
}

pub fn is_hexadecimal(digits: &[u8]) -> bool {
    !digits.is_empty() && digits.iter().all(u8::is_ascii_hexdigit)
}

/// Whether a field is the form of a number, but above the greatest.
pub fn is_high(field: &[u8]) -> bool {
    match field.strip_prefix(b"0x") {
        Some(digits) => is_hexadecimal(digits),
        None => !field.is_empty() && field.iter().all(u8::is_ascii_digit),
    }
}
