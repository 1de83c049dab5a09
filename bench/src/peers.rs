//! The ids of the benchmark, and the peer's registrations of them.

use std::fmt::{self, Display, Formatter};

/// So many ids of version 1.0, and so many registrations of each channel from 0
/// on, at most eight a channel.
#[derive(Clone, Copy)]
pub struct Peers {
    ids: u64,
    pub registrations: u64,
}

/// An id of 16 bytes, its zero included; all have the first 13 in common.
fn id(number: u64) -> Vec<u8> {
    format!("sp-service-00{number:02}\0").into_bytes()
}

fn message(ds_type: u32, handle: u64, rest: &[u8]) -> Vec<u8> {
    let mut message = ds_type.to_be_bytes().to_vec();
    message.extend((rest.len() as u32 + 8).to_be_bytes());
    message.extend(handle.to_be_bytes());
    message.extend(rest);
    message
}

/// REG_REQ of an id, under a handle.
pub fn reg_req(number: u64, handle: u64) -> Vec<u8> {
    message(3, handle, &[&[0, 1, 0, 0], &id(number)[..]].concat())
}

/// UNREG of a handle.
pub fn unreg(handle: u64) -> Vec<u8> {
    message(6, handle, &[])
}

impl Peers {
    pub const NONE: Peers = Peers {
        ids: 0,
        registrations: 0,
    };
    pub const ALL: [Peers; 3] = [Peers::some(0), Peers::some(8), Peers::some(32)];

    pub const fn some(registrations: u64) -> Peers {
        Peers {
            ids: 16,
            registrations,
        }
    }

    /// Setup's list, seven words an id.
    pub fn words(&self) -> Vec<u64> {
        let words = |number| {
            let id = id(number);
            let word = |at: usize| u64::from_be_bytes(id[at..at + 8].try_into().expect("a word"));
            [1, 0, 16, word(0), word(8), 0, 0]
        };
        (0..self.ids).flat_map(words).collect()
    }
}

impl Display for Peers {
    fn fmt(&self, text: &mut Formatter) -> fmt::Result {
        write!(
            text,
            "peers {} registrations, {} ids",
            self.registrations, self.ids
        )
    }
}
