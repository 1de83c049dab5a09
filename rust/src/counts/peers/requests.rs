//! What the peer's messages about its own services met, from the state before
//! them.

use crate::lines::Call;
use crate::peer::{Peers, MAX_ID, MAX_PEERS};
use crate::state::{Service, State, CHANNELS, TOP_BIT};
use crate::wire::{self, Message, RegReq, MAX_PAYLOAD};
use std::cmp::Ordering;
use std::collections::BTreeSet;

/// What a REG_REQ meets; DUP by one cause alone.
pub const ANSWERS: &str = "acknowledged with our minor, acknowledged with their minor, \
     acknowledged with equal minors, DUP by top bit, DUP by handle, DUP by id, DUP by ninth, \
     DUP by several, not listed, higher major, lower major";
/// What a duplicate would be refused for besides.
pub const BEFORE: &str = "before not listed, before higher major, before lower major";
pub const IDS: &str = "known of 1 byte, known of 8 bytes, known of 9 bytes, known of 32 bytes, \
     known of other length, unknown of up to 32 bytes, unknown of 33 bytes, \
     unknown of more bytes, unknown of 1024 bytes";
pub const ACKNOWLEDGED: &str = "the same id on two channels, the same handle on two channels, \
     at place 0, at place 15, after it ended, a handle after it ended";
pub const DROPPED: &str = "INIT_REQ, a version refused, a message that closes, close";
pub const KEPT: &str = "UNREG of another channel, REG_ACK, REG_NACK, UNREG_ACK, UNREG_NACK, NACK, \
     withdraw, offer";
pub const SHOWN: &str = "0 bytes, a part, on another channel, after it ended, damaged";

/// Handles and ids that were the peer's and are not any more, by channel.
#[derive(Default)]
pub struct Ended {
    handles: [BTreeSet<u64>; CHANNELS],
    places: [BTreeSet<usize>; CHANNELS],
}

impl Ended {
    /// Notes what an accepted call ended.
    pub fn note(&mut self, before: &[Peers; CHANNELS], after: &[Peers; CHANNELS]) {
        for (at, (before, after)) in before.iter().zip(after).enumerate() {
            let gone = before.places().filter(|place| !after.has(*place));
            for place in gone {
                self.handles[at].insert(before.handles[place]);
                self.places[at].insert(place);
            }
        }
    }

    /// The names of what a call meets in a state, if it is accepted.
    pub fn names(&self, state: &State, call: &Call) -> Vec<String> {
        match call {
            Call::Show(channel, message) => self.shown(state, *channel, message),
            Call::Receive(channel, message) if *channel < CHANNELS as u64 => {
                self.received(state, *channel as usize, message)
            }
            Call::Close(channel) => dropped(state, *channel, "close"),
            Call::Offer(channel, _) => kept(state, *channel, "offer"),
            Call::Withdraw(channel, _) => kept(state, *channel, "withdraw"),
            _ => Vec::new(),
        }
    }

    fn shown(&self, state: &State, channel: u64, message: &[u8]) -> Vec<String> {
        let at = usize::try_from(channel).unwrap_or(CHANNELS);
        let here = state.peers.get(at);
        let live = |handle| here.is_some_and(|here| here.find(handle).is_some());
        let shown = match wire::parse(message) {
            Some(Message::Data { handle, data }) if live(handle) => match data {
                [] => "0 bytes",
                _ => "a part",
            },
            Some(Message::Data { handle, .. }) => {
                let ended = self.handles.get(at);
                match ended.is_some_and(|ended| ended.contains(&handle)) {
                    true => "after it ended",
                    _ if elsewhere(state, at, handle) => "on another channel",
                    _ => return Vec::new(),
                }
            }
            None if message.len() >= 16 && live(wire::get64(message, 8)) => "damaged",
            _ => return Vec::new(),
        };
        vec![format!("show of a peer's data {shown}")]
    }

    fn received(&self, state: &State, at: usize, message: &[u8]) -> Vec<String> {
        let parsed = wire::parse(message);
        let channel = at as u64;
        match parsed {
            Some(Message::InitReq { major: 1 }) => return dropped(state, channel, "INIT_REQ"),
            Some(Message::InitReq { .. }) => return dropped(state, channel, "a version refused"),
            None => return dropped(state, channel, "a message that closes"),
            _ if !state.channels[at].ready => return Vec::new(),
            _ => {}
        }
        let (name, handle) = match parsed {
            Some(Message::RegReq(asked)) => return self.asked(state, at, &asked),
            Some(Message::RegAck { handle, .. }) => ("REG_ACK", handle),
            Some(Message::RegNack { handle }) => ("REG_NACK", handle),
            Some(Message::Unreg { handle }) => ("UNREG", handle),
            Some(Message::Data { handle, .. }) => ("DATA", handle),
            Some(Message::UnregAck) => return kept(state, channel, "UNREG_ACK"),
            Some(Message::UnregNack) => return kept(state, channel, "UNREG_NACK"),
            _ => return kept(state, channel, "NACK"),
        };
        let class = self.class(state, at, handle);
        let mut names = vec![format!("handle of {name} {class}")];
        match (name, class, parsed) {
            ("DATA", "a peer's live", Some(Message::Data { data, .. })) => {
                let length = match data.len() {
                    0 => "0 bytes",
                    _ if data.len() + 8 == MAX_PAYLOAD => "the most bytes",
                    _ => "other bytes",
                };
                names.push(format!("peer data of {length}"));
            }
            ("UNREG", "a peer's of another channel", _) => {
                names.push("peer not dropped by UNREG of another channel".into());
            }
            ("REG_ACK" | "REG_NACK", "a peer's live", _) => {
                names.push(format!("peer not dropped by {name}"));
            }
            _ => {}
        }
        names
    }

    /// Which handle a message on a channel names.
    fn class(&self, state: &State, at: usize, handle: u64) -> &'static str {
        let channel = &state.channels[at];
        if handle & TOP_BIT != 0 {
            return match channel
                .live(handle)
                .map(|service| channel.services[service])
            {
                Some(Service::Offered { .. }) => "ours offered",
                Some(_) => "ours registered",
                None if state
                    .channels
                    .iter()
                    .any(|other| other.live(handle).is_some()) =>
                {
                    "ours of another channel"
                }
                None => "ours not live",
            };
        }
        if state.peers[at].find(handle).is_some() {
            "a peer's live"
        } else if elsewhere(state, at, handle) {
            "a peer's of another channel"
        } else if self.handles[at].contains(&handle) {
            "a peer's ended"
        } else if channel.live(handle | TOP_BIT).is_some() {
            "bare entry number"
        } else {
            "other without the top bit"
        }
    }

    /// What a REG_REQ meets.
    fn asked(&self, state: &State, at: usize, asked: &RegReq) -> Vec<String> {
        let here = &state.peers[at];
        let place = state.ids.find(asked.id);
        let causes = [
            (asked.handle & TOP_BIT != 0, "top bit"),
            (here.find(asked.handle).is_some(), "handle"),
            (place.is_some_and(|place| here.has(place)), "id"),
            (here.count() == MAX_PEERS, "ninth"),
        ];
        let causes = causes.into_iter().filter(|(met, _)| *met);
        let causes: Vec<&str> = causes.map(|(_, cause)| cause).collect();
        let listed = place.map(|place| &state.ids.list[place]);
        let version = listed.map(|listed| {
            let minors = match asked.minor.cmp(&listed.minor) {
                Ordering::Greater => "acknowledged with our minor",
                Ordering::Less => "acknowledged with their minor",
                Ordering::Equal => "acknowledged with equal minors",
            };
            match asked.major.cmp(&listed.major) {
                Ordering::Equal => minors,
                Ordering::Greater => "higher major",
                Ordering::Less => "lower major",
            }
        });
        let version = version.unwrap_or("not listed");
        let mut names = vec![id_name(asked.id, place.is_some())];
        let met = match causes[..] {
            [] => version.to_string(),
            [only] => format!("DUP by {only}"),
            _ => "DUP by several".into(),
        };
        names.push(format!("peer REG_REQ {met}"));
        if !causes.is_empty() && !version.starts_with("acknowledged") {
            names.push(format!("peer DUP before {version}"));
        }
        if let (true, true, Some(place)) = (
            causes.is_empty(),
            version.starts_with("acknowledged"),
            place,
        ) {
            names.extend(self.acknowledged(state, at, place, asked.handle));
        }
        names
    }

    fn acknowledged(&self, state: &State, at: usize, place: usize, handle: u64) -> Vec<String> {
        let others = || {
            state
                .peers
                .iter()
                .enumerate()
                .filter(|(other, _)| *other != at)
        };
        let tests = [
            (
                others().any(|(_, peers)| peers.has(place)),
                "the same id on two channels",
            ),
            (
                others().any(|(_, peers)| peers.find(handle).is_some()),
                "the same handle on two channels",
            ),
            (place == 0, "at place 0"),
            (place == 15, "at place 15"),
            (self.places[at].contains(&place), "after it ended"),
            (
                self.handles[at].contains(&handle),
                "a handle after it ended",
            ),
        ];
        let own = |channel: &crate::Channel| channel.live(handle | TOP_BIT).is_some();
        let class = match handle {
            0 => "0",
            0x7fff_ffff_ffff_ffff => "2^63 - 1",
            _ if state.channels.iter().any(own) => "a bare entry number of ours",
            _ => "other",
        };
        let met = tests.into_iter().filter(|(met, _)| *met);
        let mut names: Vec<String> = met
            .map(|(_, name)| format!("peer acknowledged {name}"))
            .collect();
        names.push(format!(
            "peer live on a channel {}",
            state.peers[at].count() + 1
        ));
        names.push(format!("peer handle {class}"));
        names
    }
}

/// Whether a handle is one of the peer's on another channel.
fn elsewhere(state: &State, at: usize, handle: u64) -> bool {
    let mut others = state.peers.iter().enumerate();
    others.any(|(other, peers)| other != at && peers.find(handle).is_some())
}

fn has_peers(state: &State, channel: u64) -> bool {
    let at = usize::try_from(channel).unwrap_or(CHANNELS);
    state.peers.get(at).is_some_and(|peers| peers.count() > 0)
}

fn dropped(state: &State, channel: u64, by: &str) -> Vec<String> {
    let met = has_peers(state, channel);
    let name = met.then(|| format!("peers dropped by {by}"));
    name.into_iter().collect()
}

fn kept(state: &State, channel: u64, by: &str) -> Vec<String> {
    let met = has_peers(state, channel);
    let name = met.then(|| format!("peer not dropped by {by}"));
    name.into_iter().collect()
}

fn id_name(id: &[u8], known: bool) -> String {
    let name = match (known, id.len()) {
        (true, 1) => "known of 1 byte",
        (true, 8) => "known of 8 bytes",
        (true, 9) => "known of 9 bytes",
        (true, 32) => "known of 32 bytes",
        (true, _) => "known of other length",
        (false, ..=MAX_ID) => "unknown of up to 32 bytes",
        (false, 33) => "unknown of 33 bytes",
        (false, 1_024) => "unknown of 1024 bytes",
        (false, _) => "unknown of more bytes",
    };
    format!("peer id {name}")
}
