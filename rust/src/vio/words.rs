//! A message of the version phase as two words.

use super::Version;

/// The message tag and the version information.
pub type Words = [u64; 2];

/// Of the type: VIO_TYPE_CTRL.
pub const CTRL: u8 = 0x01;
/// Of the subtype: VIO_SUBTYPE_INFO, VIO_SUBTYPE_ACK, VIO_SUBTYPE_NACK.
pub const INFO: u8 = 0x01;
pub const ACK: u8 = 0x02;
pub const NACK: u8 = 0x04;
/// Of the envelope: VIO_VER_INFO.
pub const VER_INFO: u16 = 0x0001;

/// The named fields of both words. The reserved 24 bits are sent 0 and are not
/// read.
#[derive(Clone, Copy, Debug, PartialEq, Eq)]
pub struct Message {
    pub sid: u32,
    pub envelope: u16,
    pub subtype: u8,
    pub kind: u8,
    pub class: u8,
    pub version: Version,
}

impl Message {
    /// A message of the version phase.
    pub fn version(subtype: u8, sid: u32, class: u8, version: Version) -> Message {
        Message {
            sid,
            envelope: VER_INFO,
            subtype,
            kind: CTRL,
            class,
            version,
        }
    }

    /// From the top: session id 32 bits, envelope 16, subtype 8, type 8; then
    /// reserved 24, class 8, minor 16, major 16.
    pub fn pack(&self) -> Words {
        let tag = u64::from(self.sid) << 32
            | u64::from(self.envelope) << 16
            | u64::from(self.subtype) << 8
            | u64::from(self.kind);
        let info = u64::from(self.class) << 32
            | u64::from(self.version.minor) << 16
            | u64::from(self.version.major);
        [tag, info]
    }

    pub fn unpack([tag, info]: Words) -> Message {
        Message {
            sid: (tag >> 32) as u32,
            envelope: (tag >> 16) as u16,
            subtype: (tag >> 8) as u8,
            kind: tag as u8,
            class: (info >> 32) as u8,
            version: Version {
                minor: (info >> 16) as u16,
                major: info as u16,
            },
        }
    }

    pub fn is_version_phase(&self) -> bool {
        self.kind == CTRL && self.envelope == VER_INFO
    }
}
