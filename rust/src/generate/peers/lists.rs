//! Id lists: good ones, and ones that break a single rule.

use super::{id_length, id_of, near_id};
use crate::generate::random::Random;
use crate::lines::{PeerLine, MAX_ID_BYTES};
use crate::peer::{MAX_ID, MAX_IDS};

/// A major or minor version, mostly with some above and some below it.
fn version(random: &mut Random) -> u64 {
    random.pick(&[0, 1, 1, 2, 3, 7, 0x100, 0xfffe, 0xffff])
}

/// An id that keeps the rules.
pub fn one(random: &mut Random) -> PeerLine {
    let length = id_length(random);
    PeerLine {
        major: version(random),
        minor: version(random),
        id: id_of(random, length),
    }
}

/// So many different ids, some of which differ little.
fn ids(random: &mut Random, count: u64) -> Vec<PeerLine> {
    let same_length = random.once_in(4).then(|| random.pick(&[8, 9, 32]));
    let mut list: Vec<PeerLine> = Vec::new();
    while (list.len() as u64) < count {
        let mut id = one(random);
        if let Some(length) = same_length {
            id.id = id_of(random, length);
        }
        let before: Vec<usize> = (0..list.len()).collect();
        if let (Some(at), true) = (random.pick_any(&before), random.once_in(3)) {
            id.id = near_id(random, &list[at].id);
        }
        let same = |other: &PeerLine| other.id == id.id;
        if id.id.len() <= MAX_ID && !list.iter().any(same) {
            list.push(id);
        }
    }
    list
}

/// A list that setup accepts.
pub fn good(random: &mut Random) -> Vec<PeerLine> {
    let count = match random.weighted(&[10, 8, 30, 27, 25]) {
        0 => 0,
        1 => 1,
        2 => random.between(2, 8),
        3 => random.between(9, 15),
        _ => MAX_IDS as u64,
    };
    ids(random, count)
}

/// A list that breaks a single rule, or has more ids than lines may give.
pub fn bad(random: &mut Random) -> Vec<PeerLine> {
    match random.weighted(&[14, 6, 80]) {
        0 => {
            let count = random.pick(&[17, 17, 17, 18, 32]);
            ids(random, count)
        }
        1 => {
            let count = random.between(33, 35);
            ids(random, count)
        }
        _ => {
            let count = random.pick(&[1, 2, 3, 5, 15, 16]);
            let mut list = ids(random, count);
            let at = random.below(count) as usize;
            break_rule(random, &mut list, at);
            list
        }
    }
}

/// Breaks one rule for the id at `at`.
fn break_rule(random: &mut Random, list: &mut Vec<PeerLine>, at: usize) {
    let high = random.pick(&[1 << 16, 1 << 16, 1 << 16 | 1, 1 << 32, 1 << 63, u64::MAX]);
    let id = &mut list[at];
    let last = id.id.len() - 1;
    match random.below(7) {
        0 => id.major = high,
        1 => id.minor = high,
        2 => id.id.clear(),
        3 => {
            let most = MAX_ID_BYTES as u64;
            let any = random.between(MAX_ID as u64 + 2, most);
            let length = random.pick(&[MAX_ID as u64 + 1, MAX_ID as u64 + 1, any, most]);
            id.id = id_of(random, length);
            if random.once_in(2) {
                // Without its zero the first 32 bytes would be an id.
                id.id[MAX_ID - 1] = 0;
            }
        }
        4 => id.id[last] = random.between(1, 255) as u8,
        5 => {
            let length = random.pick(&[2, 2, 8, 9, 16, 17, 32]);
            id.id = id_of(random, length);
            let inner = random.below(length - 1) as usize;
            id.id[random.pick(&[0, inner, length as usize - 2])] = 0;
        }
        _ => {
            let mut twice = id.clone();
            if random.once_in(2) {
                twice.major = version(random);
                twice.minor = version(random);
            }
            let place = random.up_to(list.len() as u64) as usize;
            list.insert(place, twice);
            // With 16 ids the list had better not be too long besides.
            if list.len() > MAX_IDS {
                let others = (0..list.len()).filter(|other| ![place, at, at + 1].contains(other));
                let others: Vec<usize> = others.collect();
                list.remove(random.pick(&others));
            }
        }
    }
}

/// A line for an id that is a bad line.
pub fn bad_line(random: &mut Random) -> Vec<u8> {
    let long = "61".repeat(MAX_ID_BYTES + random.pick(&[0, 0, 1, 64]));
    let line = match random.below(8) {
        0 => random
            .pick(&["peer", "peer 1", "peer ", "peer 0x1"])
            .to_string(),
        1 => random
            .pick(&["peer 1 0 00 00", "peer 1 0 00 ", "peer 1 1 1 00"])
            .into(),
        2 => random
            .pick(&["peer 1 0 0", "peer 1 0 610", "peer 0x1 1 abc"])
            .into(),
        3 => random
            .pick(&["peer 1 0 0g", "peer 1 0 0x00", "peer 1 0 "])
            .into(),
        4 => {
            let high = random.pick(&["18446744073709551616", "0x10000000000000000"]);
            random
                .pick(&["peer @ 0 00", "peer 1 @ 00"])
                .replace('@', high)
        }
        5 => random
            .pick(&["peer x 0 00", "peer 1 -1 00", "peer 1  00"])
            .into(),
        _ => format!("peer {} 1 {long}00", random.below(4)),
    };
    line.into_bytes()
}
