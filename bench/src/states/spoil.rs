//! Values of words that the independent agent's form does not have.

use super::peers::past_16_bits;
use super::words::{DEVICE, DEVICE_COUNT, ORDER, PERMISSION};
use super::words::{ID, ID_COUNT, MINOR, PEER, PEER_WORDS};
use crate::proved::Words;
use independent::device::{DEVICE_WORDS, MAX_DEVICES};
use independent::generate::random::Random;
use independent::peer::{ID_WORDS, MAX_IDS};

/// What is spoilt.
pub const SPOILT: [&str; 5] = [
    "a device with a mark past 1",
    "a permission past 1",
    "an order past 2",
    "a version of an id past 16 bits",
    "a registration's minor past 16 bits",
];

/// Spoils one word, now and then; gives what was spoilt.
pub fn spoil(random: &mut Random, words: &mut Words) -> Option<&'static str> {
    let value = random.pick(&[2, 3, 1 << 32, 1 << 32 | 1, u64::MAX]);
    match random.below(80) {
        0 | 1 => {
            let count = words[DEVICE_COUNT].min(MAX_DEVICES as u64);
            let device = (count > 0).then(|| random.below(count) as usize)?;
            words[DEVICE + device * DEVICE_WORDS + random.pick(&[1, 2])] = value;
            Some(SPOILT[0])
        }
        2 => {
            words[PERMISSION + random.below(2) as usize] = value;
            Some(SPOILT[1])
        }
        3 => {
            words[ORDER] = value.max(3);
            Some(SPOILT[2])
        }
        4 | 5 => {
            let count = words[ID_COUNT].min(MAX_IDS as u64);
            let id = (count > 0).then(|| random.below(count) as usize)?;
            words[ID + id * ID_WORDS + random.pick(&[0, 1])] = past_16_bits(random);
            Some(SPOILT[3])
        }
        6..=8 => {
            let channels = (0..4).map(|channel| PEER + channel * PEER_WORDS);
            let places = channels.flat_map(|marks| (0..MAX_IDS).map(move |at| (marks, at)));
            let registered = places.filter(|(marks, at)| words[*marks] >> at & 1 == 1);
            let minors: Vec<usize> = registered.map(|(marks, at)| marks + MINOR + at).collect();
            words[random.pick_any(&minors)?] = past_16_bits(random);
            Some(SPOILT[4])
        }
        _ => None,
    }
}
