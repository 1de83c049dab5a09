//! Ids and registrations of the peer: sound ones, changes of one thing in them,
//! and REG_REQ.

use independent::generate::random::Random;
use independent::peer::{MAX_ID, MAX_IDS, MAX_PEERS};
use independent::state::{CHANNELS, TOP_BIT};
use independent::{build, Id, Ids, Peers, State};

/// A number past 16 bits, some of them alike in the low ones.
pub fn past_16_bits(random: &mut Random) -> u64 {
    let any = random.next() | 1 << 16;
    random.pick(&[1 << 16, 1 << 16 | 1, 1 << 32, any, 1 << 63, u64::MAX])
}

fn version(random: &mut Random) -> u16 {
    let any = random.next() as u16;
    random.pick(&[0, 1, 1, 2, 3, any, 65_535])
}

/// The words of an id's bytes.
fn words_of(bytes: &[u8]) -> [u64; 4] {
    let mut padded = [0; MAX_ID];
    padded[..bytes.len()].copy_from_slice(bytes);
    let (words, _) = padded.as_chunks();
    [0, 1, 2, 3].map(|at| u64::from_be_bytes(words[at]))
}

/// The bytes of an id that need not keep the rules.
fn bytes_of(id: &Id) -> Vec<u8> {
    let bytes = id.words.iter().flat_map(|word| word.to_be_bytes());
    bytes.take(id.length.min(MAX_ID)).collect()
}

/// An id that keeps the rules; the words past its last one are 0 or anything.
fn id(random: &mut Random) -> Id {
    let few = random.between(2, 12);
    let any = random.between(1, MAX_ID as u64);
    let length = random.pick(&[1, few, few, few, 7, 8, 9, 16, 17, any, 31, 32, 32]) as usize;
    let letter = random.between(1, 255) as u8;
    let mut bytes = vec![letter; length];
    for _ in 0..2 {
        let at = random.below(length as u64) as usize;
        bytes[at] = random.between(1, 255) as u8;
    }
    bytes[length - 1] = 0;
    let mut id = Id {
        major: version(random),
        minor: version(random),
        length,
        words: words_of(&bytes),
    };
    if random.once_in(2) {
        fill_past(random, &mut id);
    }
    id
}

/// Gives the words past the last one of an id any value.
fn fill_past(random: &mut Random, id: &mut Id) {
    let past = id.length.min(MAX_ID).div_ceil(8);
    let any = random.next();
    id.words[past..].fill(any);
}

/// Ids that keep the rules, of which a random number counts. Those past the
/// count are 0, good or anything.
pub fn ids(random: &mut Random) -> Ids {
    let any = random.up_to(MAX_IDS as u64);
    let count = random.pick(&[any, any, any, 0, 1, 2, 8, 9, 15, 16]) as usize;
    let mut list = [Id::default(); MAX_IDS];
    for at in 0..count {
        let mut next = id(random);
        if let (Some(other), true) = (random.pick_any(&list[..at]), random.once_in(3)) {
            // One byte more, or another one at the end.
            let mut bytes = bytes_of(&other);
            let letter = random.between(1, 255) as u8;
            bytes.insert(bytes.len() - 1, letter);
            bytes.truncate(MAX_ID);
            if let Some(last) = bytes.last_mut() {
                *last = 0;
            }
            (next.length, next.words) = (bytes.len(), words_of(&bytes));
        }
        while list[..at]
            .iter()
            .any(|other| bytes_of(other) == bytes_of(&next))
        {
            next = id(random);
        }
        list[at] = next;
    }
    match random.below(3) {
        0 => {}
        1 => list[count..].fill_with(|| id(random)),
        _ => list[count..].fill_with(|| any_id(random)),
    }
    Ids { count, list }
}

/// An id that may break every rule.
fn any_id(random: &mut Random) -> Id {
    let mut any = id(random);
    any.length = random.next() as usize >> random.below(64);
    any.words[random.below(4) as usize] = random.next() >> random.below(64);
    any
}

/// A handle that lacks the top bit.
fn bare_handle(random: &mut Random, state: &State) -> u64 {
    let any = random.next();
    let few = random.below(8);
    let of_us = super::make::live(state);
    let own = random.pick_any(&of_us).unwrap_or(any);
    random.pick(&[few, few, few, own, any, 0, u64::MAX, few << 32]) & !TOP_BIT
}

/// Registers ids on the ready channels of a state: none, some or all that may
/// be.
pub fn register(random: &mut Random, state: &mut State) {
    for channel in 0..CHANNELS {
        let wanted = random.pick(&[0, 0, 1, 2, 7, 8, 8]);
        if !state.channels[channel].ready {
            continue;
        }
        let mut places: Vec<usize> = (0..state.ids.count).collect();
        random.shuffle(&mut places);
        for place in places.into_iter().take(wanted) {
            let mut handle = bare_handle(random, state);
            while state.peers[channel].find(handle).is_some() {
                handle = random.next() >> 1;
            }
            let most = state.ids.list[place].minor;
            let any = random.up_to(most.into()) as u16;
            let minor = random.pick(&[0, any, most, most]);
            state.peers[channel].add(place, handle, minor);
        }
    }
}

/// The place of an id; often the last that counts.
fn place(random: &mut Random, ids: &Ids) -> usize {
    let last = ids.count.clamp(1, MAX_IDS) as u64 - 1;
    let any = random.up_to(last);
    random.pick(&[any, last]) as usize
}

/// Changes one thing of the ids; they may keep their rules.
pub fn change_ids(random: &mut Random, ids: &mut Ids) {
    let (at, other) = (place(random, ids), place(random, ids));
    let other = ids.list[other];
    let count = ids.count;
    let id = &mut ids.list[at];
    match random.below(9) {
        0 => {
            let (below, above) = (count.saturating_sub(1), count.wrapping_add(1));
            ids.count = random.pick(&[0, below, above, above, 16, 17, 18, 1 << 32, usize::MAX]);
        }
        1 | 2 => length(random, id),
        3..=5 => byte(random, id),
        6 => (id.length, id.words) = (other.length, other.words),
        7 => fill_past(random, id),
        _ => (id.major, id.minor) = (version(random), version(random)),
    }
}

/// The length, beside its bounds, that of the id and its last word.
fn length(random: &mut Random, id: &mut Id) {
    let length = id.length;
    id.length = random.pick(&[
        0,
        1,
        length.wrapping_sub(1),
        length.wrapping_add(1),
        length.wrapping_add(8),
        length | 1 << 32,
        32,
        33,
        33,
        40,
        usize::MAX,
    ]);
}

/// No zero at the end, a zero inside, or a byte other than 0 after the end.
fn byte(random: &mut Random, id: &mut Id) {
    let length = id.length.clamp(1, MAX_ID);
    let inner = random.below(length as u64) as usize;
    let past = random.between(length as u64, length.next_multiple_of(8) as u64) as usize;
    let any = random.between(1, 255);
    let (at, byte) = match random.below(3) {
        0 => (length - 1, any),
        1 => (random.pick(&[0, inner, inner, length.saturating_sub(2)]), 0),
        _ => (past.min(MAX_ID - 1), any),
    };
    let shift = 56 - at % 8 * 8;
    let word = &mut id.words[at / 8];
    *word = *word & !(0xff << shift) | byte << shift;
}

/// Changes one thing of the registrations of a channel, or of all of them.
pub fn change(random: &mut Random, state: &mut State) {
    let with = (0..CHANNELS).filter(|channel| state.peers[*channel].count() > 0);
    let with: Vec<usize> = with.collect();
    let any = random.below(CHANNELS as u64) as usize;
    let channel = random.pick_any(&with).unwrap_or(any);
    let registered: Vec<usize> = state.peers[channel].places().collect();
    let at = random.pick_any(&registered);
    let other = random.pick_any(&registered);
    let (handle, minor) = (bare_handle(random, state), version(random));
    let new = random.below(MAX_IDS as u64) as usize;
    let places = state.ids.count.min(MAX_IDS);
    let ids = state.ids;
    let peers = &mut state.peers[channel];
    match (random.below(9), at, other) {
        (0, Some(at), _) => peers.handles[at] |= TOP_BIT,
        (1, Some(at), Some(other)) => peers.handles[at] = peers.handles[other],
        (2, Some(at), _) => {
            let most = ids.list[at].minor;
            peers.minors[at] =
                random.pick(&[most, most.wrapping_add(1), most.wrapping_add(1), minor]);
        }
        (3, Some(at), _) => peers.remove(at),
        (4, ..) => peers.add(new, handle, 0),
        // Eight, or one more.
        (5, ..) => {
            let wanted = MAX_PEERS + random.pick(&[0, 1, 1, 8]);
            for place in (0..places).rev() {
                if peers.count() < wanted && !peers.has(place) {
                    peers.add(place, random.next() >> 1, 0);
                }
            }
        }
        (6, ..) => state.channels[channel].ready ^= true,
        (7, ..) => state.ids.count = new,
        _ => {
            let closed = (0..CHANNELS).find(|channel| !state.channels[*channel].ready);
            let place = new.min(places.saturating_sub(1));
            if let Some(closed) = closed.filter(|_| places > 0) {
                state.peers[closed] = Peers::default();
                state.peers[closed].add(place, handle, 0);
            }
        }
    }
}

/// A handle of the peer: live on the channel, live anywhere, or nearly one.
pub fn handle(random: &mut Random, state: &State, channel: u64) -> Option<u64> {
    let of = |peers: &Peers| -> Vec<u64> {
        let places = peers.places();
        places.map(|place| peers.handles[place]).collect()
    };
    let anywhere: Vec<u64> = state.peers.iter().flat_map(of).collect();
    let anywhere = random.pick_any(&anywhere)?;
    let here = usize::try_from(channel).ok();
    let here = here.and_then(|at| state.peers.get(at)).map(of);
    let here = random.pick_any(&here.unwrap_or_default());
    Some(match (random.below(10), here) {
        (0, _) | (_, None) => anywhere,
        (1, Some(here)) => here ^ random.pick(&[1, 2, 1 << 32, TOP_BIT]),
        (_, Some(here)) => here,
    })
}

/// REG_REQ: of a listed id or nearly one, under a handle that is often new.
pub fn reg_req(random: &mut Random, state: &State, channel: u64) -> Vec<u8> {
    let here = usize::try_from(channel).ok();
    let here = here.and_then(|at| state.peers.get(at)).copied();
    let here = here.unwrap_or_default();
    let free = (0..state.ids.count.min(MAX_IDS)).filter(|place| !here.has(*place));
    let free: Vec<usize> = free.collect();
    let any = place(random, &state.ids);
    let place = random.pick_any(&free).filter(|_| !random.once_in(5));
    let listed = state.ids.list[place.unwrap_or(any)];
    let mut id = bytes_of(&listed);
    let (below, above) = (listed.minor.wrapping_sub(1), listed.minor.wrapping_add(1));
    let minor = random.pick(&[0, listed.minor, below, above, 65_535]);
    let mut major = listed.major;
    let mut handle = match self::handle(random, state, channel) {
        Some(handle) if random.once_in(5) => handle,
        _ => bare_handle(random, state),
    };
    match random.below(16) {
        0 => major = major.wrapping_add(1),
        1 => major = major.wrapping_sub(1),
        2 => major = version(random),
        3 | 4 => handle |= TOP_BIT,
        5 if !id.is_empty() => {
            let at = random.below(id.len() as u64) as usize;
            id[at] = random.next() as u8;
        }
        6 => id.insert(random.up_to(id.len() as u64) as usize, b'x'),
        7 => {
            id.pop();
        }
        8 => {
            id.resize(random.pick(&[33, 40, 1_024, 1_025]), b'x');
            id.iter_mut()
                .filter(|byte| **byte == 0)
                .for_each(|byte| *byte = b'x');
            if let Some(last) = id.last_mut() {
                *last = 0;
            }
        }
        _ => {}
    }
    build::reg_req(handle, major, minor, &id)
}
