//! A call as a line, with numbers in the ways that are allowed.

use crate::generate::random::Random;
use crate::generate::text::write_number;
use crate::vio::{Call, Words};

/// The line of a call, without LF.
pub fn line(call: &Call, random: &mut Random) -> Vec<u8> {
    match *call {
        Call::End(number, class, accepts, ref versions) => {
            let mut numbers = vec![number as u64, class.into(), accepts.into()];
            for version in versions {
                numbers.extend([u64::from(version.major), version.minor.into()]);
            }
            with_numbers(b"end", &numbers, random)
        }
        Call::Start(number, sid) => with_numbers(b"start", &[number as u64, sid.into()], random),
        Call::Receive(number, sid, words) => {
            let mut line = with_numbers(b"receive", &[number as u64, sid.into()], random);
            write_words(words, random, &mut line);
            line
        }
        Call::State(number) => with_numbers(b"state", &[number as u64], random),
    }
}

fn with_numbers(name: &[u8], numbers: &[u64], random: &mut Random) -> Vec<u8> {
    let mut line = name.to_vec();
    for number in numbers {
        write_number(*number, random, &mut line);
    }
    line
}

/// Nearly always with all hexadecimal digits.
fn write_words(words: Words, random: &mut Random, line: &mut Vec<u8>) {
    for word in words {
        if random.once_in(20) {
            write_number(word, random, line);
        } else {
            line.extend_from_slice(format!(" {word:#018x}").as_bytes());
        }
    }
}
