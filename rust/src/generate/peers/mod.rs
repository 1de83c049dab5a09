//! Id lists, the lines that give them, and what the peer sends about its own
//! services.

mod actions;
mod lists;
mod requests;

pub use lists::{bad, good};
use lists::{bad_line, one};
pub use requests::{handle, live, reg_req, Registration};

use super::random::Random;
use crate::peer::MAX_ID;

/// An id of so many bytes, its zero included.
fn id_of(random: &mut Random, length: u64) -> Vec<u8> {
    let letters = random.once_in(2);
    let mut id: Vec<u8> = (1..length)
        .map(|_| match letters {
            true => random.pick(b"ab"),
            false => random.between(1, 255) as u8,
        })
        .collect();
    id.push(0);
    id
}

/// How long a listed id is: mostly a few bytes, often at a word's end.
fn id_length(random: &mut Random) -> u64 {
    match random.weighted(&[5, 40, 35, 20]) {
        0 => 1,
        1 => random.between(2, 12),
        2 => random.pick(&[7, 8, 9, 15, 16, 17, 24, 25, 31]),
        _ => MAX_ID as u64,
    }
}

/// An id that differs from this one in one byte or in its length.
fn near_id(random: &mut Random, id: &[u8]) -> Vec<u8> {
    let mut near = id.to_vec();
    let last = near.len() - 1;
    match random.below(3) {
        0 if last > 0 => {
            let inner = random.below(last as u64) as usize;
            let at = random.pick(&[0, inner, last - 1]);
            near[at] = if near[at] == b'a' { b'b' } else { b'a' };
        }
        1 if last > 0 => {
            near.remove(random.pick(&[0, last - 1]));
        }
        _ => near.insert(random.pick(&[0, last]), b'a'),
    }
    near
}
