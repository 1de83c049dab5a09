//! Virtual devices and the rules that ticket 1 of 02 gives for them.

pub mod service;

use crate::wire::get64;

/// There are 0 to 32 devices.
pub const MAX_DEVICES: usize = 32;
/// Setup gives 36 words for each device: id, configured, busy, the bytes of
/// the name with its zero, and the name.
pub const DEVICE_WORDS: usize = 36;
/// A name has 1 to 256 bytes with its zero.
pub const MAX_NAME: usize = 256;
/// The words before the name.
const NAME_WORD: usize = 4;
const WORD: usize = 8;

/// One device. The name is the first `length` bytes of `name`; those that
/// follow in its last word are 0, and the words after that say nothing.
#[derive(Clone, Copy, Debug, PartialEq, Eq)]
pub struct Device {
    pub id: u64,
    pub configured: bool,
    pub busy: bool,
    pub length: usize,
    pub name: [u8; MAX_NAME],
}

impl Default for Device {
    fn default() -> Device {
        Device {
            id: 0,
            configured: false,
            busy: false,
            length: 0,
            name: [0; MAX_NAME],
        }
    }
}

/// The device list: the first `count` of `list`.
#[derive(Clone, Copy, Debug, Default, PartialEq, Eq)]
pub struct Devices {
    pub count: usize,
    pub list: [Device; MAX_DEVICES],
}

/// Other than 0 just if one of the word's bytes is 0.
fn zero_bytes(word: u64) -> u64 {
    const LOW: u64 = u64::from_ne_bytes([0x01; WORD]);
    const HIGH: u64 = u64::from_ne_bytes([0x80; WORD]);
    word.wrapping_sub(LOW) & !word & HIGH
}

impl Device {
    /// The device that 36 words describe; none if one of the two marks is not
    /// 0 or 1, or the length is none of a name.
    fn from_words(words: &[u64]) -> Option<Device> {
        let (&[id, configured, busy, length], rest) = words.split_first_chunk()?;
        if configured > 1 || busy > 1 || length > MAX_NAME as u64 {
            return None;
        }
        let mut name = [0; MAX_NAME];
        for (bytes, word) in name.chunks_exact_mut(WORD).zip(rest) {
            bytes.copy_from_slice(&word.to_be_bytes());
        }
        Some(Device {
            id,
            configured: configured == 1,
            busy: busy == 1,
            length: length as usize,
            name,
        })
    }

    /// The words that describe it.
    pub fn words(&self) -> [u64; DEVICE_WORDS] {
        let mut words = [0; DEVICE_WORDS];
        words[..NAME_WORD].copy_from_slice(&[
            self.id,
            self.configured.into(),
            self.busy.into(),
            self.length as u64,
        ]);
        for (word, bytes) in words[NAME_WORD..].iter_mut().zip(self.name.chunks(WORD)) {
            *word = get64(bytes, 0);
        }
        words
    }

    /// The name with its zero. The device must keep the rules.
    pub fn name(&self) -> &[u8] {
        &self.name[..self.length]
    }

    /// Whether the name has a length, its last byte is its only zero, and the
    /// bytes after it in its last word are 0.
    fn keeps_rules(&self) -> bool {
        if !(1..=MAX_NAME).contains(&self.length) {
            return false;
        }
        let zero = self.length - 1;
        let (whole, rest) = self.name.split_at(zero / WORD * WORD);
        // Without an early end many bytes are looked at in one step.
        let least = whole.iter().fold(u8::MAX, |least, byte| least.min(*byte));
        let last = get64(rest, 0);
        let bits = zero % WORD * 8;
        least != 0 && zero_bytes(last | u64::MAX >> bits) | last << bits == 0
    }
}

impl Devices {
    /// Setup's list of words, if it is whole devices that keep the rules.
    pub fn from_words(words: &[u64]) -> Option<Devices> {
        let count = words.len() / DEVICE_WORDS;
        if !words.len().is_multiple_of(DEVICE_WORDS) || count > MAX_DEVICES {
            return None;
        }
        let mut devices = Devices {
            count,
            ..Devices::default()
        };
        let given = words.chunks_exact(DEVICE_WORDS);
        for (device, words) in devices.list.iter_mut().zip(given) {
            *device = Device::from_words(words)?;
        }
        devices.keep_rules().then_some(devices)
    }

    /// Whether every device keeps the rules and none has the id and name of
    /// another, a made list's included.
    pub fn keep_rules(&self) -> bool {
        let Some(list) = self.list.get(..self.count) else {
            return false;
        };
        list.iter().all(Device::keeps_rules) && differ(list)
    }

    /// The devices there are. The list must keep the rules.
    pub fn listed(&self) -> &[Device] {
        &self.list[..self.count]
    }

    /// The place of the device with this id and this name, its zero included.
    /// The list must keep the rules.
    pub fn find(&self, id: u64, name: &[u8]) -> Option<usize> {
        let known = |device: &Device| device.id == id && device.name() == name;
        self.listed().iter().position(known)
    }
}

/// Whether no device has the id and name of one before it. The devices must
/// keep their own rules. Names are looked at only where two ids are the same.
fn differ(list: &[Device]) -> bool {
    let mut ids = [0; MAX_DEVICES];
    for (id, device) in ids.iter_mut().zip(list) {
        *id = device.id;
    }
    list.iter().enumerate().all(|(at, device)| {
        let same = |before: &Device| before.id == device.id && before.name() == device.name();
        !ids[..at].contains(&device.id) || !list[..at].iter().any(same)
    })
}
