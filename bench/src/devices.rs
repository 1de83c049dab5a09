//! The devices of the benchmark, and requests of the last of them.

use std::fmt::{self, Display, Formatter};

const STATUS: u32 = 0x49_4f53;
const CONFIGURE: u32 = 0x49_4f43;
const UNCONFIGURE: u32 = 0x49_4f55;

/// As many devices, configured and idle, with ids from 0 and one name of so
/// many bytes, its zero included.
#[derive(Clone, Copy)]
pub struct Devices {
    count: u64,
    name_bytes: usize,
}

const fn devices(count: u64, name_bytes: usize) -> Devices {
    Devices { count, name_bytes }
}

impl Devices {
    pub const NONE: Devices = devices(0, 8);
    pub const FULL: Devices = devices(32, 256);
    pub const ALL: [Devices; 6] = [
        devices(0, 256),
        devices(0, 8),
        devices(4, 8),
        devices(4, 256),
        devices(32, 8),
        Devices::FULL,
    ];

    fn name(&self) -> Vec<u8> {
        let mut name = vec![b'd'; self.name_bytes];
        name[self.name_bytes - 1] = 0;
        name
    }

    /// Setup's list, 36 words a device.
    pub fn words(&self) -> Vec<u64> {
        let mut bytes = self.name();
        bytes.resize(256, 0);
        let name = bytes
            .as_chunks()
            .0
            .iter()
            .map(|word| u64::from_be_bytes(*word));
        let device = |id| {
            [id, 1, 0, self.name_bytes as u64]
                .into_iter()
                .chain(name.clone())
        };
        (0..self.count).flat_map(device).collect()
    }

    /// The payload of a request: STATUS, UNCONFIGURE, STATUS and CONFIGURE in
    /// turn. With no devices that of device 0 is of an unknown one.
    pub fn request(&self, handle: u64, number: u64) -> Vec<u8> {
        let asked = [STATUS, UNCONFIGURE, STATUS, CONFIGURE][number as usize % 4];
        let mut payload = handle.to_be_bytes().to_vec();
        payload.extend(number.to_be_bytes());
        payload.extend(self.count.saturating_sub(1).to_be_bytes());
        payload.extend(asked.to_be_bytes());
        payload.extend(self.name());
        payload
    }
}

impl Display for Devices {
    fn fmt(&self, text: &mut Formatter) -> fmt::Result {
        write!(text, "devices {}, names {}", self.count, self.name_bytes)
    }
}
