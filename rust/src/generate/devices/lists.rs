//! Device lists: good ones, and ones that break a single rule.

use super::{name_length, name_of};
use crate::device::{MAX_DEVICES, MAX_NAME};
use crate::generate::random::Random;
use crate::lines::{DeviceLine, MAX_NAME_BYTES};

/// A device id: mostly small, so that a list has some of them twice.
fn id(random: &mut Random) -> u64 {
    let any = random.next();
    match random.weighted(&[60, 20, 20]) {
        0 => random.below(6),
        1 => random.pick(&[1 << 32, 1 << 32 | 1, 1 << 63, u64::MAX, 0x100]),
        _ => any,
    }
}

/// A device that keeps the rules.
pub fn one(random: &mut Random) -> DeviceLine {
    let length = name_length(random);
    DeviceLine {
        id: id(random),
        configured: random.below(2),
        busy: random.below(2),
        name: name_of(random, length),
    }
}

/// A good list of `count` devices, some of which share an id or a name.
fn devices(random: &mut Random, count: u64) -> Vec<DeviceLine> {
    let same_length = random.once_in(4).then(|| random.pick(&[8, 8, 256]));
    let mut list: Vec<DeviceLine> = Vec::new();
    while (list.len() as u64) < count {
        let mut device = one(random);
        if let Some(length) = same_length {
            device.name = name_of(random, length);
        }
        let places: Vec<usize> = (0..list.len()).collect();
        match (random.pick_any(&places), random.weighted(&[60, 20, 20])) {
            (Some(at), 1) => device.name = list[at].name.clone(),
            (Some(at), 2) => device.id = list[at].id,
            _ => {}
        }
        let same = |other: &DeviceLine| other.id == device.id && other.name == device.name;
        if !list.iter().any(same) {
            list.push(device);
        }
    }
    list
}

/// A list that setup accepts.
pub fn good(random: &mut Random) -> Vec<DeviceLine> {
    let count = match random.weighted(&[15, 15, 50, 12, 8]) {
        0 => 0,
        1 => 1,
        2 => random.between(2, 6),
        3 => random.between(7, 31),
        _ => MAX_DEVICES as u64,
    };
    devices(random, count)
}

/// A list that breaks a single rule, or has more devices than lines may give.
pub fn bad(random: &mut Random) -> Vec<DeviceLine> {
    match random.weighted(&[12, 6, 82]) {
        0 => {
            let count = random.pick(&[33, 33, 33, 34, 64]);
            devices(random, count)
        }
        1 => {
            let count = random.between(65, 67);
            devices(random, count)
        }
        _ => {
            let count = random.pick(&[1, 2, 3, 5, 31, 32]);
            let mut list = devices(random, count);
            let at = random.below(count) as usize;
            break_rule(random, &mut list, at);
            list
        }
    }
}

/// Breaks one rule for the device at `at`.
fn break_rule(random: &mut Random, list: &mut Vec<DeviceLine>, at: usize) {
    let mark = random.pick(&[2, 2, 3, 1 << 32, 1 << 32 | 1, 1 << 63, u64::MAX]);
    let device = &mut list[at];
    let last = device.name.len() - 1;
    match random.below(7) {
        0 => device.configured = mark,
        1 => device.busy = mark,
        2 => device.name.clear(),
        3 => {
            let most = MAX_NAME_BYTES as u64;
            let any = random.between(MAX_NAME as u64 + 2, most);
            let length = random.pick(&[MAX_NAME as u64 + 1, MAX_NAME as u64 + 1, any, most]);
            device.name = name_of(random, length);
        }
        4 => device.name[last] = random.between(1, 255) as u8,
        5 => {
            let length = random.pick(&[2, 2, 8, 9, 256]);
            device.name = name_of(random, length);
            let inner = random.below(length - 1) as usize;
            device.name[random.pick(&[0, inner, length as usize - 2])] = 0;
        }
        _ => {
            let mut twice = device.clone();
            twice.configured ^= random.below(2);
            twice.busy ^= random.below(2);
            let place = random.up_to(list.len() as u64) as usize;
            list.insert(place, twice);
            // With 32 devices the list had better not be too long besides.
            if list.len() > MAX_DEVICES {
                let others = (0..list.len()).filter(|other| *other != place && *other != at);
                let others: Vec<usize> = others.filter(|other| *other != at + 1).collect();
                list.remove(random.pick(&others));
            }
        }
    }
}

/// A line for a device that is a bad line.
pub fn bad_line(random: &mut Random) -> Vec<u8> {
    let long = "61".repeat(MAX_NAME_BYTES + random.pick(&[1, 1, 2, 300]));
    let line = match random.below(8) {
        0 => random
            .pick(&["device", "device 1", "device 1 0", "device "])
            .into(),
        1 => random
            .pick(&[
                "device 1 0 0 00 00",
                "device 1 0 0 00 ",
                "device 1 1 1 1 00",
            ])
            .into(),
        2 => random
            .pick(&["device 1 0 0 0", "device 1 0 0 610", "device 0x1 1 0 abc"])
            .into(),
        3 => random
            .pick(&["device 1 0 0 0g", "device 1 0 0 0x00", "device 1 0 0 "])
            .into(),
        4 => {
            let high = random.pick(&["18446744073709551616", "0x10000000000000000"]);
            let places = ["device @ 0 0 00", "device 1 @ 0 00", "device 1 0 @ 00"];
            random.pick(&places).replace('@', high)
        }
        5 => random
            .pick(&["device x 0 0 00", "device 1 -1 0 00", "device 1 0  00"])
            .into(),
        _ => format!("device {} 0 1 {long}00", random.below(4)),
    };
    line.into_bytes()
}
