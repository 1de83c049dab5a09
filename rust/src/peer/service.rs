//! REG_REQ of the peer, by section 2.5 of source document 003 and ticket 7 of
//! 02, and what is sent under its handles.

use super::{Ids, Peers, MAX_PEERS};
use crate::agent::Done;
use crate::entry::{Event, PeerEvent};
use crate::state::TOP_BIT;
use crate::wire::{self, RegReq, Writer};
use std::cmp::Ordering;

/// The answer to REG_REQ.
#[derive(Clone, Copy, Debug, PartialEq, Eq)]
pub enum Answer {
    /// The id at a place is registered with a minor version.
    Acknowledged { place: usize, minor: u16 },
    /// A top bit, a handle or an id that is registered, or a ninth one.
    Duplicate,
    /// The id is not listed, or its major is told: 0 if a lower one was asked.
    Version { major: u16 },
}

/// What a REG_REQ gets: duplicates are tested first, then the id, then the
/// version.
pub fn judge(peers: &Peers, ids: &Ids, asked: &RegReq) -> Answer {
    let place = ids.find(asked.id);
    if asked.handle & TOP_BIT != 0
        || peers.count() >= MAX_PEERS
        || place.is_some_and(|place| peers.has(place))
        || peers.find(asked.handle).is_some()
    {
        return Answer::Duplicate;
    }
    let Some(place) = place else {
        return Answer::Version { major: 0 };
    };
    let listed = &ids.list[place];
    match asked.major.cmp(&listed.major) {
        Ordering::Equal => Answer::Acknowledged {
            place,
            minor: asked.minor.min(listed.minor),
        },
        Ordering::Greater => Answer::Version {
            major: listed.major,
        },
        Ordering::Less => Answer::Version { major: 0 },
    }
}

/// Answers REG_REQ; what registers nothing is only noted.
pub fn register(peers: &mut Peers, ids: &Ids, asked: &RegReq, out: &mut [u8]) -> Done {
    let handle = asked.handle;
    let (result, major) = match judge(peers, ids, asked) {
        Answer::Acknowledged { place, minor } => {
            peers.add(place, handle, minor);
            let reply = Writer::message(out, wire::REG_ACK, 10)
                .put64(handle)
                .put16(minor);
            let event = PeerEvent::Registered {
                place,
                minor,
                handle,
            };
            return (Event::Peer(event), reply.length());
        }
        Answer::Duplicate => (wire::REG_DUP, 0),
        Answer::Version { major } => (wire::REG_VER_NACK, major),
    };
    let reply = Writer::message(out, wire::REG_NACK, 18)
        .put64(handle)
        .put64(result)
        .put16(major);
    let noted = Event::Noted {
        ds_type: wire::REG_REQ,
    };
    (noted, reply.length())
}
