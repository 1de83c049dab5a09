//! Why a line for permit or take is bad.

use crate::lines::number;

/// The members of the groups `permit line bad` and `take line bad`.
pub const PERMIT: &str = "missing field, further field, number, neither 0 nor 1";
pub const TAKE: &str = "further field";

/// Why this bad line is bad, if it begins with the name of one of the two.
pub fn bad(line: &[u8]) -> Option<String> {
    let fields: Vec<&[u8]> = line.split(|byte| *byte == b' ').collect();
    match fields[..] {
        [b"permit"] | [b"permit", _] => Some("permit line bad missing field".into()),
        [b"permit", service, permitted] => {
            let numbers = number(service).is_some() && number(permitted).is_some();
            let why = if numbers { "neither 0 nor 1" } else { "number" };
            Some(format!("permit line bad {why}"))
        }
        [b"permit", ..] => Some("permit line bad further field".into()),
        [b"take", _, ..] => Some("take line bad further field".into()),
        _ => None,
    }
}
