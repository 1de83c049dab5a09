//! Device requests: of known and unknown devices, and of bad form.

use super::{name_length, name_of};
use crate::device::service::{
    CONFIGURE, FORCE_UNCONFIG, LONGEST_NAME, NAME_START, STATUS, UNCONFIGURE,
};
use crate::device::{Device, MAX_NAME};
use crate::generate::random::Random;
use crate::state::State;
use crate::{build, memory};

const TYPES: [u32; 4] = [CONFIGURE, UNCONFIGURE, FORCE_UNCONFIG, STATUS];

/// A type for a device: often one that changes it.
fn asked(random: &mut Random, device: Option<&Device>) -> u32 {
    let configured = device.is_some_and(|device| device.configured);
    let change = match configured {
        true => random.pick(&[UNCONFIGURE, UNCONFIGURE, FORCE_UNCONFIG]),
        false => CONFIGURE,
    };
    match random.once_in(2) {
        true => change,
        false => random.pick(&TYPES),
    }
}

/// A device request of right form: mostly of a listed device.
pub fn request(random: &mut Random, state: &State, number: u64) -> Vec<u8> {
    let listed = random.pick_any(state.devices.listed());
    match listed {
        Some(device) if !random.once_in(4) => {
            let asked = asked(random, Some(&device));
            build::device(number, device.id, asked, device.name())
        }
        _ => {
            let (id, name) = unknown(random, state, listed);
            let asked = random.pick(&TYPES);
            build::device(number, id, asked, &name)
        }
    }
}

/// An id and a name that are hardly ever those of one device.
fn unknown(random: &mut Random, state: &State, listed: Option<Device>) -> (u64, Vec<u8>) {
    let length = name_length(random);
    let other_name = name_of(random, length);
    let any = random.next();
    let Some(device) = listed else {
        let id = random.pick(&[0, 1, any]);
        return (id, long_name(random).unwrap_or(other_name));
    };
    let Device { id, .. } = device;
    let name = device.name().to_vec();
    let second = random.pick(state.devices.listed());
    let other_id = random.pick(&[id ^ 1, id ^ 1 << 32, id ^ 1 << 63, any]);
    match random.weighted(&[25, 20, 15, 15, 25]) {
        0 => (other_id, name),
        1 => (id, near_name(random, &name)),
        2 => (id, second.name().to_vec()),
        3 => (id, long_name(random).unwrap_or(other_name)),
        _ => (other_id, long_name(random).unwrap_or(other_name)),
    }
}

/// A name that differs from this one in one byte or in its length.
fn near_name(random: &mut Random, name: &[u8]) -> Vec<u8> {
    let mut near = name.to_vec();
    let last = near.len() - 1;
    match random.below(3) {
        0 if last > 0 => {
            let inner = random.below(last as u64) as usize;
            let at = random.pick(&[0, inner, last - 1]);
            near[at] = if near[at] == b'a' { b'b' } else { b'a' };
        }
        1 if last > 0 => {
            near.remove(random.pick(&[0, last - 1]));
        }
        _ => near.insert(random.pick(&[0, last]), b'z'),
    }
    near
}

/// A name of about the greatest length of a listed one or of a message; none
/// most of the time.
fn long_name(random: &mut Random) -> Option<Vec<u8>> {
    let most = MAX_NAME as u64;
    let longest = LONGEST_NAME as u64;
    let any = random.between(most + 2, 400);
    let length = match random.weighted(&[60, 10, 10, 10, 3, 3]) {
        0 => return None,
        1 => most,
        2 => most + 1,
        3 => any,
        4 => longest,
        _ => random.between(401, longest - 1),
    };
    Some(name_of(random, length))
}

/// A type that is hardly ever one of the four.
fn other_type(random: &mut Random) -> u32 {
    let any = random.next() as u32;
    let right = random.pick(&TYPES);
    let near = [right & 0xffff, right << 8, right | 1 << 24, right ^ 1];
    let near = random.pick(&near);
    random.pick(&[near, near, near, near, 0, 0x49_4f44, memory::QUERY, any])
}

/// A device request spoilt in one way; a few turn out good.
pub fn damaged(random: &mut Random, state: &State, number: u64) -> Vec<u8> {
    let mut data = request(random, state, number);
    let last = data.len() - 1;
    match random.weighted(&[35, 20, 15, 20, 10]) {
        0 => {
            // Also the shortest good length, if the name is a zero alone.
            let length = random.below(NAME_START as u64 + 2) as usize;
            data.truncate(length);
            if length > NAME_START && random.once_in(2) {
                data[NAME_START] = 0;
            }
        }
        1 => {
            let other = other_type(random);
            data[16..20].copy_from_slice(&other.to_be_bytes());
        }
        2 => data[last] = random.between(1, 255) as u8,
        3 => {
            let inner = random.between(NAME_START as u64, last as u64) as usize;
            let at = random.pick(&[NAME_START, inner, last]);
            data.insert(at, 0);
        }
        _ => {
            let inner = random.between(NAME_START as u64, last as u64) as usize;
            data[last] = b'x';
            data[inner] = 0;
        }
    }
    data.truncate(NAME_START + LONGEST_NAME);
    data
}
