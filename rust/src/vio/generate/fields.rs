//! Versions near others, and messages with one field changed.

use crate::generate::random::Random;
use crate::vio::words::{Message, ACK, INFO, NACK};
use crate::vio::{Version, Words};

/// What an ACK may say of the version asked: mostly what it should.
pub fn acknowledged(asked: Version, random: &mut Random) -> Version {
    let Version { major, minor } = asked;
    match random.weighted(&[25, 25, 25, 25]) {
        0 => asked,
        1 => Version {
            major,
            minor: random.up_to(u64::from(minor)) as u16,
        },
        2 => Version {
            major,
            minor: minor.saturating_add(random.between(1, 3) as u16),
        },
        _ => Version {
            major: next_to(major, random),
            minor,
        },
    }
}

/// What a NACK may tell of the version asked.
pub fn told(asked: Version, random: &mut Random) -> Version {
    let Version { major, minor } = asked;
    let any = random.pick(&[0, 1, minor, u16::MAX]);
    match random.weighted(&[15, 10, 35, 15, 10, 15]) {
        0 => asked,
        1 => Version::NONE,
        2 => Version {
            major: random.below(u64::from(major.max(1))) as u16,
            minor: any,
        },
        3 => Version {
            major,
            minor: next_to(minor, random),
        },
        4 => Version {
            major: 0,
            minor: any.max(1),
        },
        _ => Version {
            major: major.saturating_add(random.pick(&[1, 1, 2, u16::MAX])),
            minor: any,
        },
    }
}

/// A version that is held, or one near it.
pub fn near(held: Version, random: &mut Random) -> Version {
    let Version { major, minor } = held;
    let major = match random.weighted(&[50, 35, 15]) {
        0 => major,
        1 => next_to(major, random),
        _ => random.pick(&[0, 1, u16::MAX]),
    };
    let minor = match random.weighted(&[30, 50, 20]) {
        0 => minor,
        1 => next_to(minor, random),
        _ => random.pick(&[0, 1, u16::MAX]),
    };
    Version { major, minor }
}

/// The number above or below.
fn next_to(number: u16, random: &mut Random) -> u16 {
    match random.once_in(2) {
        true => number.wrapping_add(1),
        false => number.wrapping_sub(1),
    }
}

/// As it is, with reserved bits, or with one field or bit changed.
pub fn sometimes_changed(words: Words, random: &mut Random) -> Words {
    match random.weighted(&[55, 15, 30]) {
        0 => words,
        1 => with_reserved(words, random),
        _ => changed(words, random),
    }
}

/// One field or one bit changed.
pub fn changed(words: Words, random: &mut Random) -> Words {
    let mut message = Message::unpack(words);
    match random.weighted(&[2, 2, 2, 2, 3, 1, 2]) {
        0 => message.sid ^= random.pick(&[1, 2, 1 << 16, 1 << 31]),
        1 => message.class ^= random.pick(&[1, 2, 4, 128]),
        2 => message.version.major = next_to(message.version.major, random),
        3 => message.version.minor = next_to(message.version.minor, random),
        4 => return with_other_tag(words, random),
        5 => return with_reserved(words, random),
        _ => return with_a_bit_changed(words, random),
    }
    message.pack()
}

/// Another type, subtype or envelope.
pub fn with_other_tag(words: Words, random: &mut Random) -> Words {
    let mut message = Message::unpack(words);
    match random.below(3) {
        0 => message.kind = random.pick(&[0, 2, 4, 0x81, 0xff]),
        1 => message.subtype = random.pick(&[0, INFO, ACK, 3, NACK, 5, 6, 8, 0x81, 0xff]),
        _ => message.envelope = random.pick(&[0, 2, 3, 4, 5, 0x40, 0x80, 0x101, 0x8001]),
    }
    message.pack()
}

/// Some of the reserved bits set.
pub fn with_reserved([tag, info]: Words, random: &mut Random) -> Words {
    let bits = random.pick(&[1, 1 << 23, (1 << 24) - 1, 0x80_0001]);
    [tag, info | bits << 40]
}

fn with_a_bit_changed(mut words: Words, random: &mut Random) -> Words {
    let place = random.below(128) as usize;
    words[place / 64] ^= 1 << (place % 64);
    words
}
