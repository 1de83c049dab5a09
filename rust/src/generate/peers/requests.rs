//! REG_REQ of the peer, and handles of its registrations.

use super::{id_length, id_of, near_id};
use crate::build;
use crate::generate::messages;
use crate::generate::random::Random;
use crate::peer::{Id, Peers, MAX_ID};
use crate::state::{State, TOP_BIT};

/// A registration of the peer.
#[derive(Clone, Copy)]
pub struct Registration {
    pub channel: u64,
    pub handle: u64,
}

/// All registrations of the peer.
pub fn live(state: &State) -> Vec<Registration> {
    let channels = (0..).zip(&state.peers);
    let all = channels.flat_map(|(channel, peers)| {
        let places = peers.places();
        places.map(move |place| Registration {
            channel,
            handle: peers.handles[place],
        })
    });
    all.collect()
}

/// A handle that lacks the top bit: one of few, so that they come again, the
/// number of one of our own, one of another registration, or any.
pub fn handle(random: &mut Random, state: &State) -> u64 {
    let own = messages::pick_live(random, state, |_| true);
    let own = own.map_or(state.last + 1, |live| live.handle);
    let peers = random.pick_any(&live(state)).map(|peer| peer.handle);
    let any = random.next();
    let handle = match random.weighted(&[60, 12, 10, 12, 6]) {
        0 => random.below(16),
        1 => own,
        2 => random.pick(&[0, u64::MAX, 1 << 32, 1 << 62, any & 0xf | 7 << 32]),
        3 => peers.unwrap_or(any),
        _ => any,
    };
    handle & !TOP_BIT
}

/// An id that is hardly ever listed, with its zero, of 1 to 1,024 bytes; a few
/// are bad.
fn unlisted(random: &mut Random, listed: Option<&Id>) -> Vec<u8> {
    let length = match random.weighted(&[40, 10, 15, 20, 5, 3, 3]) {
        0 => match listed {
            Some(id) => return near_id(random, &id.bytes()),
            None => id_length(random),
        },
        1 => 1,
        2 => id_length(random),
        3 => random.pick(&[33, 33, 34, 40, 64]),
        4 => random.between(41, 200),
        5 => 1_024,
        _ => random.pick(&[1_023, 1_025, 1_026]),
    };
    let mut id = id_of(random, length);
    if let (Some(listed), true) = (listed, length > MAX_ID as u64 && random.once_in(2)) {
        // The beginning of a listed one.
        let bytes = listed.bytes();
        let own = bytes.len() - 1;
        id[..own].copy_from_slice(&bytes[..own]);
    }
    match random.weighted(&[92, 4, 4]) {
        0 => {}
        1 => id[random.below(length) as usize] = 0,
        _ => id[length as usize - 1] = b'x',
    }
    id
}

/// REG_REQ on a channel: mostly of a listed id that is not registered there,
/// else with one or two things that it must be refused for.
pub fn reg_req(random: &mut Random, state: &State, channel: u64) -> Vec<u8> {
    let here = usize::try_from(channel).ok();
    let here = here.and_then(|at| state.peers.get(at)).copied();
    let here = here.unwrap_or_default();
    let mut asked = plain(random, state, &here);
    let changes = random.pick(&[0, 0, 0, 1, 1, 1, 1, 2]);
    for _ in 0..changes {
        asked.change(random, state, &here);
    }
    build::reg_req(asked.handle, asked.major, asked.minor, &asked.id)
}

struct Asked {
    handle: u64,
    major: u16,
    minor: u16,
    id: Vec<u8>,
}

/// A listed id with its major, and a handle that is mostly new here.
fn plain(random: &mut Random, state: &State, here: &Peers) -> Asked {
    let free = (0..state.ids.count).filter(|place| !here.has(*place));
    let free: Vec<usize> = free.collect();
    let listed = random.pick_any(&free).map(|place| state.ids.list[place]);
    let listed = listed.or_else(|| random.pick_any(state.ids.listed()));
    let mut handle = handle(random, state);
    if here.find(handle).is_some() && !random.once_in(5) {
        handle = random.next() >> 1;
    }
    let any = random.next() as u16;
    match listed {
        Some(id) => {
            let (below, above) = (id.minor.saturating_sub(1), id.minor.saturating_add(1));
            Asked {
                handle,
                major: id.major,
                minor: random.pick(&[0, id.minor, id.minor, below, above, 0xffff, any]),
                id: id.bytes(),
            }
        }
        None => Asked {
            handle,
            major: random.below(3) as u16,
            minor: random.below(3) as u16,
            id: unlisted(random, None),
        },
    }
}

impl Asked {
    /// Gives it something that it must be refused for.
    fn change(&mut self, random: &mut Random, state: &State, here: &Peers) {
        let registered: Vec<usize> = here.places().collect();
        let registered = random.pick_any(&registered);
        let any = random.next() as u16;
        match (random.weighted(&[20, 20, 20, 20, 12, 12]), registered) {
            (0, _) => {
                let own = messages::pick_live(random, state, |_| true);
                let own = own.map_or(self.handle, |live| live.handle);
                self.handle = TOP_BIT | random.pick(&[self.handle, own, 0, u64::MAX]);
            }
            (1, Some(place)) => self.handle = here.handles[place],
            (2, Some(place)) => self.id = state.ids.list[place].bytes(),
            (3, _) => {
                let listed = random.pick_any(state.ids.listed());
                self.id = unlisted(random, listed.as_ref());
            }
            (4, _) => {
                let above = self.major.saturating_add(1);
                self.major = random.pick(&[above, above, 0xffff, any.max(above)]);
            }
            _ => {
                let below = self.major.saturating_sub(1);
                self.major = random.pick(&[below, below, 0, any.min(below)]);
            }
        }
    }
}
