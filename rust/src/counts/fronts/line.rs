//! Why a line for piece or reopen is bad.

use super::super::devices::line::{is_hexadecimal, is_high};
use crate::lines::number;

/// The members of the groups `piece line bad` and `reopen line bad`.
pub const PIECE: &str = "missing field, further field, number out of range, number, \
     odd count of digits, digits, too long";
pub const REOPEN: &str = "missing field, further field, number out of range, number";

/// Why this bad line is bad, if it begins with the name of one of the two.
pub fn bad(line: &[u8]) -> Option<String> {
    let fields: Vec<&[u8]> = line.split(|byte| *byte == b' ').collect();
    let (name, most) = match fields[0] {
        b"piece" => ("piece", 2),
        b"reopen" => ("reopen", 1),
        _ => return None,
    };
    let fields = &fields[1..];
    let bad_number = fields.first().filter(|field| number(field).is_none());
    let why = match (bad_number, fields.get(1)) {
        _ if fields.is_empty() => "missing field",
        (Some(field), _) if is_high(field) => "number out of range",
        (Some(_), _) => "number",
        _ if fields.len() > most => "further field",
        (_, Some(digits)) if !is_hexadecimal(digits) => "digits",
        (_, Some(digits)) if digits.len() % 2 != 0 => "odd count of digits",
        _ => "too long",
    };
    Some(format!("{name} line bad {why}"))
}
