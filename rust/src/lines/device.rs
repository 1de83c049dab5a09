//! The line `device ID CONFIGURED BUSY NAME`, which adds a device to the list
//! of the next setup.

use super::call::{bytes, number};
use crate::device::{DEVICE_WORDS, MAX_NAME};

/// A name on a line has 0 to 300 bytes.
pub const MAX_NAME_BYTES: usize = 300;
/// At most so many lines stand before a setup.
pub const MAX_DEVICE_LINES: usize = 64;

/// A device as its line gives it, inside setup's limits or not.
#[derive(Clone, Debug, Default, PartialEq, Eq)]
pub struct DeviceLine {
    pub id: u64,
    pub configured: u64,
    pub busy: u64,
    /// The name with its zero.
    pub name: Vec<u8>,
}

impl DeviceLine {
    /// The device that the fields after the line's own name give. Without a
    /// field for it the name has 0 bytes.
    pub(super) fn from_fields<'a>(
        mut fields: impl Iterator<Item = &'a [u8]>,
    ) -> Option<DeviceLine> {
        let mut next = || number(fields.next()?);
        let (id, configured, busy) = (next()?, next()?, next()?);
        let name = bytes(fields.next())?;
        let whole = name.len() <= MAX_NAME_BYTES && fields.next().is_none();
        whole.then_some(DeviceLine {
            id,
            configured,
            busy,
            name,
        })
    }

    /// The device's words for setup: the count of all bytes of its name, and
    /// the first 256 of them.
    pub fn words(&self) -> [u64; DEVICE_WORDS] {
        let mut words = [0; DEVICE_WORDS];
        let length = self.name.len() as u64;
        words[..4].copy_from_slice(&[self.id, self.configured, self.busy, length]);
        for (at, byte) in self.name.iter().take(MAX_NAME).enumerate() {
            words[4 + at / 8] |= u64::from(*byte) << (56 - at % 8 * 8);
        }
        words
    }
}
