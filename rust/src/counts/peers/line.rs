//! Why a line for an id is bad.

use super::super::devices::line::{is_hexadecimal, is_high};
use crate::lines::{number, MAX_ID_BYTES};

/// The members of the group `peer line bad`.
pub const BAD: &str = "missing field, further field, number out of range, number, \
     odd count of digits, digits, id over 64 bytes, the 33rd";

/// Why this bad line is bad, if it is one for an id; the 33rd is one that would
/// be good else.
pub fn bad(line: &[u8]) -> Option<String> {
    let fields: Vec<&[u8]> = line.split(|byte| *byte == b' ').collect();
    let [b"peer", fields @ ..] = &fields[..] else {
        return None;
    };
    let mut numbers = fields.iter().take(2);
    let bad_number = numbers.find(|field| number(field).is_none());
    let digits = fields.get(2).copied();
    let why = match (fields.len(), bad_number, digits) {
        (..=1, _, _) => "missing field",
        (_, Some(field), _) if is_high(field) => "number out of range",
        (_, Some(_), _) => "number",
        (4.., _, _) => "further field",
        (_, _, Some(digits)) if !is_hexadecimal(digits) => "digits",
        (_, _, Some(digits)) if digits.len() % 2 != 0 => "odd count of digits",
        (_, _, Some(digits)) if digits.len() > 2 * MAX_ID_BYTES => "id over 64 bytes",
        _ => "the 33rd",
    };
    Some(format!("peer line bad {why}"))
}
