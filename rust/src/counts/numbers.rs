//! What the numbers of memory requests met.

use super::memory_name;
use crate::memory::{request_number, Request};
use crate::state::{Channel, Service, State, CHANNELS};
use crate::wire::{self, get32, Message};

/// The members of the groups `number refused` (beside those of each request),
/// `number first` and `number accepted`.
pub const REFUSED: &str = "before BLOCKED";
pub const FIRST: &str = "0, 2^64 - 1, other, not above an earlier registration's";
pub const ACCEPTED: &str =
    "higher by 1, higher by more, not above another channel's, not above one of bad form";

/// Numbers on one channel that a state does not keep.
#[derive(Clone, Copy, Default)]
struct Seen {
    /// The highest of an earlier registration.
    earlier: Option<u64>,
    /// The highest in messages of bad form under this registration.
    bad_form: Option<u64>,
}

/// What a state before a message has to do with its number.
pub struct Before {
    channels: [Channel; CHANNELS],
    highest: [Option<u64>; CHANNELS],
    outstanding: bool,
}

impl Before {
    pub fn of(state: &State) -> Before {
        Before {
            channels: state.channels,
            highest: state.highest,
            outstanding: state.removal.is_some(),
        }
    }
}

/// The numbers since setup.
#[derive(Default)]
pub struct Numbers {
    seen: [Seen; CHANNELS],
}

impl Numbers {
    /// The names of what the number of an accepted message met.
    pub fn received(&mut self, before: &Before, at: usize, message: &[u8]) -> Vec<String> {
        let channel = &before.channels[at];
        match wire::parse(message) {
            Some(Message::RegAck { handle, .. }) if channel.offered(handle) == Some(0) => {
                let seen = &mut self.seen[at];
                seen.earlier = before.highest[at].or(seen.earlier);
                seen.bad_form = None;
                Vec::new()
            }
            Some(Message::Data { handle, data }) if channel.registered(handle) == Some(0) => {
                self.data(before, at, data)
            }
            _ => Vec::new(),
        }
    }

    /// Data that reached service 0.
    fn data(&mut self, before: &Before, at: usize, data: &[u8]) -> Vec<String> {
        let number = request_number(data);
        let seen = &mut self.seen[at];
        let Some(request) = Request::read(data) else {
            seen.bad_form = seen.bad_form.max(Some(number));
            return Vec::new();
        };
        match before.highest[at] {
            Some(highest) if number <= highest => {
                let asked = memory_name(get32(data, 0));
                let how = if number == highest { "equal" } else { "lower" };
                let mut names = vec![format!("number refused {asked} {how}")];
                let blocked = matches!(request, Request::Configure(_) | Request::Unconfigure(_));
                if blocked && before.outstanding {
                    names.push(format!("number refused {REFUSED}"));
                }
                names
            }
            _ => accepted(before, at, number, seen),
        }
    }
}

/// The names for a number that is the first or above the highest.
fn accepted(before: &Before, at: usize, number: u64, seen: &Seen) -> Vec<String> {
    let registered = |channel: usize| {
        let service = before.channels[channel].services[0];
        matches!(service, Service::Registered { .. })
    };
    let others = (0..CHANNELS).filter(|other| *other != at && registered(*other));
    let not_above = |other: Option<u64>| other >= Some(number);
    let (name, first) = match (before.highest[at], number) {
        (None, 0) => ("first 0", true),
        (None, u64::MAX) => ("first 2^64 - 1", true),
        (None, _) => ("first other", true),
        (Some(highest), _) if number - highest == 1 => ("accepted higher by 1", false),
        _ => ("accepted higher by more", false),
    };
    let mut names = vec![format!("number {name}")];
    if first && not_above(seen.earlier) {
        names.push("number first not above an earlier registration's".into());
    }
    if others.map(|other| before.highest[other]).any(not_above) {
        names.push("number accepted not above another channel's".into());
    }
    if not_above(seen.bad_form) {
        names.push("number accepted not above one of bad form".into());
    }
    names
}
