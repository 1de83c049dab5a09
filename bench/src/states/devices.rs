//! Devices: sound lists, changes of one thing in them, and device requests.

use independent::device::service::{CONFIGURE, FORCE_UNCONFIG, NAME_START, STATUS, UNCONFIGURE};
use independent::device::{MAX_DEVICES, MAX_NAME};
use independent::generate::random::Random;
use independent::{build, Device, Devices};

/// A device whose name keeps the rules; the bytes past its last word are 0 or
/// anything.
fn device(random: &mut Random) -> Device {
    let few = random.between(2, 20);
    let any = random.between(1, MAX_NAME as u64);
    let length = random.pick(&[1, 8, 8, few, few, few, few, 16, 17, any, 255, 256]) as usize;
    let mut device = Device {
        id: random.pick(&[0, 1, 2, 1 << 32, few, any << 40, u64::MAX]),
        configured: random.once_in(2),
        busy: random.once_in(2),
        length,
        name: [0; MAX_NAME],
    };
    let letter = random.between(1, 255) as u8;
    device.name[..length - 1].fill(letter);
    for _ in 0..3 {
        let at = random.below(length as u64) as usize;
        device.name[at] = random.between(1, 255) as u8;
    }
    device.name[length - 1] = 0;
    if random.once_in(2) {
        fill_past(random, &mut device);
    }
    device
}

/// Gives the bytes past the last word of the name any values.
fn fill_past(random: &mut Random, device: &mut Device) {
    let past = device.length.min(MAX_NAME).next_multiple_of(8);
    let any = random.next() as u8;
    device.name[past..].fill(any);
}

/// Whether two devices have the same id and name.
fn are_same(one: &Device, other: &Device) -> bool {
    let bytes = one.length.min(MAX_NAME);
    one.id == other.id && one.length == other.length && one.name[..bytes] == other.name[..bytes]
}

/// Devices that keep the rules, some with an id or a name of another, of which
/// a random number counts. Those past the count stay, are 0, or are anything.
pub fn sound(random: &mut Random) -> Devices {
    let any = random.up_to(MAX_DEVICES as u64);
    let count = random.pick(&[any, any, 0, 1, 2, 3, 4, 32]) as usize;
    let mut list = [Device::default(); MAX_DEVICES];
    for at in 0..count {
        let mut next = device(random);
        if let Some(other) = random.pick_any(&list[..at]) {
            match random.below(4) {
                0 => next.id = other.id,
                1 => (next.length, next.name) = (other.length, other.name),
                _ => {}
            }
        }
        while list[..at].iter().any(|other| are_same(other, &next)) {
            next.id = random.next();
        }
        list[at] = next;
    }
    match random.below(3) {
        0 => {}
        1 => list[count..].fill_with(|| device(random)),
        _ => list[count..].fill_with(|| any_device(random)),
    }
    Devices { count, list }
}

/// A device that may break every rule.
fn any_device(random: &mut Random) -> Device {
    let mut any = device(random);
    any.length = random.next() as usize >> random.below(64);
    any.name[random.below(MAX_NAME as u64) as usize] = 0;
    any
}

/// The place of a device; often the last that counts.
fn place(random: &mut Random, devices: &Devices) -> usize {
    let last = devices.count.clamp(1, MAX_DEVICES) as u64 - 1;
    let any = random.up_to(last);
    random.pick(&[any, last]) as usize
}

/// Changes one thing; the devices may keep their rules.
pub fn change(random: &mut Random, devices: &mut Devices) {
    let (at, other) = (place(random, devices), place(random, devices));
    let other = devices.list[other];
    let device = &mut devices.list[at];
    match random.below(11) {
        0 => count(random, &mut devices.count),
        1 | 2 => length(random, device),
        3..=5 => name(random, device),
        6 => (device.id, device.length, device.name) = (other.id, other.length, other.name),
        7 => device.id = other.id,
        8 => (device.length, device.name) = (other.length, other.name),
        9 => fill_past(random, device),
        _ => *device = any_device(random),
    }
}

fn count(random: &mut Random, count: &mut usize) {
    let (below, above) = (count.saturating_sub(1), count.wrapping_add(1));
    *count = random.pick(&[0, below, above, above, 32, 33, 34, 1 << 32, usize::MAX]);
}

/// The length, beside its bounds, that of the name and its last word.
fn length(random: &mut Random, device: &mut Device) {
    let length = device.length;
    device.length = random.pick(&[
        0,
        1,
        length.wrapping_sub(1),
        length.wrapping_add(1),
        length.wrapping_add(8),
        length | 1 << 32,
        256,
        257,
        257,
        264,
        usize::MAX,
    ]);
}

/// No zero at the end, a zero inside, or a byte other than 0 after the end.
fn name(random: &mut Random, device: &mut Device) {
    let length = device.length.clamp(1, MAX_NAME);
    let inner = random.below(length as u64) as usize;
    let past = random.between(length as u64, length.next_multiple_of(8) as u64) as usize;
    let any = random.between(1, 255) as u8;
    let (at, byte) = match random.below(3) {
        0 => (length - 1, any),
        1 => (random.pick(&[0, inner, inner, length.saturating_sub(2)]), 0),
        _ => (past.min(MAX_NAME - 1), any),
    };
    device.name[at] = byte;
}

const TYPES: [u32; 4] = [CONFIGURE, UNCONFIGURE, FORCE_UNCONFIG, STATUS];

/// A device request: of a listed device, of nearly one, or spoilt.
pub fn message(random: &mut Random, devices: &Devices) -> Vec<u8> {
    let device = devices.list[place(random, devices)];
    let other = devices.list[place(random, devices)];
    let mut name = device.name[..device.length.min(MAX_NAME)].to_vec();
    let any = random.next();
    let mut id = device.id;
    let mut asked = random.pick(&TYPES);
    match random.below(16) {
        0 => id = random.pick(&[id ^ 1, id ^ 1 << 32, any]),
        1 => name = other.name[..other.length.min(MAX_NAME)].to_vec(),
        2 => name = long_name(random),
        3 if !name.is_empty() => {
            let at = random.below(name.len() as u64) as usize;
            name[at] = any as u8;
        }
        4 => name.insert(random.up_to(name.len() as u64) as usize, any as u8 & 1),
        5 => {
            name.pop();
        }
        6 => asked = random.pick(&[0, 0x49_4f44, asked << 8, asked | 1 << 24, any as u32]),
        _ => {}
    }
    let number = random.pick(&[0, 9, any, any, u64::MAX]);
    let mut message = build::device(number, id, asked, &name);
    if random.once_in(8) {
        message.truncate(random.below(NAME_START as u64 + 2) as usize);
    }
    message
}

/// A name of 255 to 258 bytes or of the most that a message has.
fn long_name(random: &mut Random) -> Vec<u8> {
    let length = random.pick(&[255, 256, 256, 257, 257, 258, 4_068]);
    let mut name = vec![b'n'; length];
    name[length - 1] = 0;
    name
}
