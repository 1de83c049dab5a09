//! Device lists, the lines that give them, and device requests.

mod actions;
mod lists;
mod requests;

pub use lists::{bad, good};
use lists::{bad_line, one};
use requests::damaged;
pub use requests::request;

use super::random::Random;
use crate::device::MAX_NAME;

/// A name of so many bytes, its zero included.
fn name_of(random: &mut Random, length: u64) -> Vec<u8> {
    let letters = random.once_in(2);
    let mut name: Vec<u8> = (1..length)
        .map(|_| match letters {
            true => random.pick(b"abdiknst"),
            false => random.between(1, 255) as u8,
        })
        .collect();
    name.push(0);
    name
}

/// How long a listed name is: mostly a few bytes, often 8 and 256.
fn name_length(random: &mut Random) -> u64 {
    match random.weighted(&[10, 30, 35, 10, 4, 8, 3]) {
        0 => 1,
        1 => 8,
        2 => random.between(2, 20),
        3 => random.pick(&[7, 9, 15, 16, 17, 24]),
        4 => random.between(21, 254),
        5 => MAX_NAME as u64,
        _ => random.pick(&[248, 249, 255]),
    }
}
