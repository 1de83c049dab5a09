//! The line `peer MAJOR MINOR ID`, which adds an id to the list of the next
//! setup.

use super::call::{bytes, number};
use crate::peer::{ID_WORDS, MAX_ID};

/// An id on a line has 0 to 64 bytes.
pub const MAX_ID_BYTES: usize = 64;
/// At most so many lines stand before a setup.
pub const MAX_PEER_LINES: usize = 32;

/// An id as its line gives it, inside setup's limits or not.
#[derive(Clone, Debug, Default, PartialEq, Eq)]
pub struct PeerLine {
    pub major: u64,
    pub minor: u64,
    /// The id with its zero.
    pub id: Vec<u8>,
}

impl PeerLine {
    /// The id that the fields after the line's own name give. Without a field
    /// for it the id has 0 bytes.
    pub(super) fn from_fields<'a>(mut fields: impl Iterator<Item = &'a [u8]>) -> Option<PeerLine> {
        let mut next = || number(fields.next()?);
        let (major, minor) = (next()?, next()?);
        let id = bytes(fields.next())?;
        let whole = id.len() <= MAX_ID_BYTES && fields.next().is_none();
        whole.then_some(PeerLine { major, minor, id })
    }

    /// The id's words for setup: the count of all its bytes, and the first 32
    /// of them.
    pub fn words(&self) -> [u64; ID_WORDS] {
        let mut words = [0; ID_WORDS];
        words[..3].copy_from_slice(&[self.major, self.minor, self.id.len() as u64]);
        for (at, byte) in self.id.iter().take(MAX_ID).enumerate() {
            words[3 + at / 8] |= u64::from(*byte) << (56 - at % 8 * 8);
        }
        words
    }
}
