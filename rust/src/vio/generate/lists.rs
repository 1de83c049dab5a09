//! Ends to be set up: classes, and lists of versions.

use crate::generate::random::Random;
use crate::vio::end::MAX_VERSIONS;
use crate::vio::{Call, Version};

/// The majors from which the lists of an exchange are taken.
const SPANS: [(u16, u16); 6] = [
    (1, 3),
    (1, 6),
    (1, 8),
    (1, 40),
    (65_496, 65_535),
    (1, 65_535),
];

/// Both ends: nearly always they accept each other.
pub fn pair(random: &mut Random) -> [Call; 2] {
    let classes = [class(random), class(random)];
    let span = random.pick(&SPANS);
    [0, 1].map(|number: usize| {
        let accepts = match random.once_in(8) {
            true => class(random),
            false => classes[1 - number],
        };
        let list = versions(span, random);
        Call::End(number, classes[number], accepts, list)
    })
}

/// One end with any classes; its list is good or is refused.
pub fn one(number: usize, good: bool, random: &mut Random) -> Call {
    let span = random.pick(&SPANS);
    let list = match good {
        true => versions(span, random),
        false => refused(random),
    };
    Call::End(number, class(random), class(random), list)
}

/// One of 004's classes, or any number.
fn class(random: &mut Random) -> u8 {
    match random.once_in(6) {
        true => random.next() as u8,
        false => random.between(1, 4) as u8,
    }
}

/// A good list: 1 to 6 versions, or the most that an end takes.
fn versions((low, high): (u16, u16), random: &mut Random) -> Vec<Version> {
    let span = usize::from(high - low) + 1;
    let count = match random.once_in(12) {
        true => MAX_VERSIONS,
        false => random.between(1, 6) as usize,
    };
    different(count.min(span), (low, high), random)
}

/// So many different majors in any order.
fn different(count: usize, (low, high): (u16, u16), random: &mut Random) -> Vec<Version> {
    let mut list: Vec<Version> = Vec::new();
    while list.len() < count {
        let major = random.between(low.into(), high.into()) as u16;
        if list.iter().all(|version| version.major != major) {
            let minor = minor(random);
            list.push(Version { major, minor });
        }
    }
    list
}

fn minor(random: &mut Random) -> u16 {
    match random.weighted(&[85, 5, 10]) {
        0 => random.below(4) as u16,
        1 => random.pick(&[u16::MAX - 1, u16::MAX]),
        _ => random.next() as u16,
    }
}

/// A list with major 0, with a major twice, or of too many versions.
fn refused(random: &mut Random) -> Vec<Version> {
    let span = (1, 60);
    let count = random.between(1, 6) as usize;
    let mut list = different(count, span, random);
    let place = random.below(count as u64) as usize;
    match random.below(3) {
        0 => list[place].major = 0,
        1 => {
            let minor = minor(random);
            list.push(Version {
                minor,
                ..list[place]
            });
        }
        _ => {
            let over = random.pick(&[1, 1, 2, 20]);
            list = different(MAX_VERSIONS + over, span, random);
        }
    }
    random.shuffle(&mut list);
    list
}
