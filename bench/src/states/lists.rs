//! The lists of a setup: sound ones, and ones that break a rule or are not
//! whole blocks, devices or ids.

use super::change::change;
use super::words::{fill_free, lists_of, words_of};
use super::{make, peers};
use independent::block::{BLOCK_WORDS, PAGE};
use independent::device::DEVICE_WORDS;
use independent::generate::random::Random;
use independent::peer::ID_WORDS;

/// A block list, a device list and an id list.
pub fn any(random: &mut Random) -> [Vec<u64>; 3] {
    let mut state = make::sound(random);
    for _ in 0..random.pick(&[0, 0, 0, 0, 1, 1, 2]) {
        change(random, &mut state);
    }
    let mut words = words_of(&state);
    if random.once_in(2) {
        fill_free(&mut words, || random.next());
    }
    let [mut blocks, mut devices, mut ids] = lists_of(&words);
    match random.below(20) {
        0 => cut(random, &mut blocks, BLOCK_WORDS),
        1 => more_blocks(random, &mut blocks),
        _ => {}
    }
    match random.below(12) {
        0 => cut(random, &mut devices, DEVICE_WORDS),
        1 => mark(random, &mut devices),
        2 => more(random, &mut devices),
        _ => {}
    }
    match random.below(12) {
        0 => cut(random, &mut ids, ID_WORDS),
        1 => version(random, &mut ids),
        2 => more_ids(random, &mut ids),
        _ => {}
    }
    [blocks, devices, ids]
}

/// Adds blocks of a page up to 63, 64, 65 or 66, each at the end before it.
fn more_blocks(random: &mut Random, blocks: &mut Vec<u64>) {
    let count = random.pick(&[63, 64, 65, 65, 66]);
    while blocks.len() < count * BLOCK_WORDS {
        let base = match blocks.last_chunk::<BLOCK_WORDS>() {
            Some([base, pages, ..]) => base.wrapping_add(pages.wrapping_mul(PAGE)),
            None => 0,
        };
        blocks.extend([base, 1, 0, 0, random.below(2)]);
    }
}

/// Gives an id a version past 16 bits.
fn version(random: &mut Random, ids: &mut [u64]) {
    let count = ids.len() / ID_WORDS;
    if count > 0 {
        let id = random.below(count as u64) as usize * ID_WORDS;
        ids[id + random.pick(&[0, 1])] = peers::past_16_bits(random);
    }
}

/// Adds ids up to 15, 16, 17 or 18.
fn more_ids(random: &mut Random, ids: &mut Vec<u64>) {
    let count = random.pick(&[15, 16, 17, 17, 18]);
    while ids.len() < count * ID_WORDS {
        let bytes = random.next() | 0x0101_0101_0101_0101;
        ids.extend([1, 0, 8, bytes & !0xff, 0, 0, 0]);
    }
}

/// Takes words away or adds some.
fn cut(random: &mut Random, list: &mut Vec<u64>, size: usize) {
    let part = random.between(1, size as u64) as usize;
    let length = match random.once_in(2) {
        true => list.len() + part,
        false => list.len().saturating_sub(part),
    };
    list.resize(length, 0);
}

/// Gives a mark of a device a value past 1.
fn mark(random: &mut Random, devices: &mut [u64]) {
    let count = devices.len() / DEVICE_WORDS;
    if count == 0 {
        return;
    }
    let device = random.below(count as u64) as usize * DEVICE_WORDS;
    let value = random.pick(&[2, 3, 1 << 32, 1 << 32 | 1, u64::MAX]);
    devices[device + random.pick(&[1, 2])] = value;
}

/// Adds devices with ids of their own up to 31, 32, 33 or 34.
fn more(random: &mut Random, devices: &mut Vec<u64>) {
    let count = random.pick(&[31, 32, 33, 33, 34]);
    while devices.len() < count * DEVICE_WORDS {
        let mut device = [0; DEVICE_WORDS];
        device[0] = random.next();
        device[3] = 1;
        devices.extend(device);
    }
}
