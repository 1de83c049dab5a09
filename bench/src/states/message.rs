//! Messages for a state, well and badly formed.

use super::{devices, make, orders, peers};
use independent::generate::random::Random;
use independent::state::{State, TOP_BIT};
use independent::wire::{HEADER, MAX_PAYLOAD};
use independent::{build, memory, wire, Service};

/// A message of any type for `channel`.
pub fn any(random: &mut Random, state: &State, channel: u64) -> Vec<u8> {
    let handle = handle(random, state, channel);
    let minor = random.pick(&[0, 0, 1, 65_535]);
    let mut message = match random.below(20) {
        0 | 1 => build::init_req(random.pick(&[0, 1, 1, 1, 2, 65_535]), minor),
        2 => peers::reg_req(random, state, channel),
        3 | 4 => build::reg_ack(handle, minor),
        5 => build::reg_nack(handle, 1, minor),
        6 | 7 => build::of_handle(wire::UNREG, handle),
        8 => build::of_handle(random.pick(&[wire::UNREG_ACK, wire::UNREG_NACK]), handle),
        9 => build::nack(handle, 3),
        10 | 11 => data(random, handle),
        _ => {
            let own = service_handle(state, channel, 0).unwrap_or(handle);
            let handle = random.pick(&[own, own, own, own, own, handle]);
            build::data(handle, &memory_message(random, state))
        }
    };
    if random.once_in(12) {
        spoil(random, &mut message);
    }
    message
}

/// A device request for `channel`.
pub fn for_device(random: &mut Random, state: &State, channel: u64) -> Vec<u8> {
    let handle = handle(random, state, channel);
    let own = service_handle(state, channel, 1).unwrap_or(handle);
    let handle = random.pick(&[own, own, own, own, own, handle]);
    let mut message = build::data(handle, &devices::message(random, &state.devices));
    if random.once_in(12) {
        spoil(random, &mut message);
    }
    message
}

/// A request of service 2 or 3 for `channel`.
pub fn for_order(random: &mut Random, state: &State, channel: u64, service: usize) -> Vec<u8> {
    let handle = handle(random, state, channel);
    let own = service_handle(state, channel, service).unwrap_or(handle);
    let handle = random.pick(&[own, own, own, own, own, handle]);
    let mut message = build::data(handle, &orders::message(random, service));
    if random.once_in(12) {
        spoil(random, &mut message);
    }
    message
}

/// What the peer sends about its own services on `channel`.
pub fn for_peer(random: &mut Random, state: &State, channel: u64) -> Vec<u8> {
    let handle = match peers::handle(random, state, channel) {
        Some(handle) if !random.once_in(6) => handle,
        _ => handle(random, state, channel),
    };
    let mut message = match random.below(12) {
        0..=5 => peers::reg_req(random, state, channel),
        6 | 7 => build::of_handle(wire::UNREG, handle),
        8 => build::reg_ack(handle, 0),
        9 => build::reg_nack(handle, 1, 0),
        _ => data(random, handle),
    };
    if random.once_in(16) {
        spoil(random, &mut message);
    }
    message
}

/// Mostly DATA for service 1, 2 or 3 of `channel`, or under a handle of the peer.
pub fn for_show(random: &mut Random, state: &State, channel: u64) -> Vec<u8> {
    if random.once_in(4) {
        return any(random, state, channel);
    }
    let service = random.between(1, 3) as usize;
    let of_peer = peers::handle(random, state, channel).filter(|_| !random.once_in(3));
    let own = of_peer.or(service_handle(state, channel, service));
    let handle = own.unwrap_or_else(|| handle(random, state, channel));
    let mut message = data(random, handle);
    if random.once_in(12) {
        spoil(random, &mut message);
    }
    message
}

/// A message for `channel` as a stream carries it: payload_len tells where it
/// ends, and of one with a payload_len above 4,096 there is the header alone.
pub fn of_stream(random: &mut Random, state: &State, channel: u64) -> Vec<u8> {
    let mut message = match random.below(16) {
        0 => {
            let handle = handle(random, state, channel);
            build::data(handle, &random.bytes(4_088))
        }
        1 => {
            let over = random.pick(&[4_097, 4_097, 4_097, 4_098, 1 << 16, u32::MAX]);
            return build::with_length(random.pick(&[wire::INIT_REQ, wire::DATA]), over, &[]);
        }
        2 => build::ds(random.pick(&[0, 3, 9, 11, u32::MAX]), &[]),
        3 | 4 => for_device(random, state, channel),
        5 | 6 => for_order(random, state, channel, 2),
        7..=9 => for_peer(random, state, channel),
        _ => any(random, state, channel),
    };
    message.resize(message.len().max(HEADER), 0);
    let payload_len = message.len() - HEADER;
    message[4..HEADER].copy_from_slice(&(payload_len as u32).to_be_bytes());
    if payload_len > MAX_PAYLOAD {
        message.truncate(HEADER);
    }
    message
}

/// The handle of a live service.
fn service_handle(state: &State, channel: u64, service: usize) -> Option<u64> {
    let channel = state.channels.get(channel as usize)?;
    channel.services[service].handle()
}

/// A handle of ours: live on the channel, live anywhere, or another.
fn handle(random: &mut Random, state: &State, channel: u64) -> u64 {
    let anywhere = random
        .pick_any(&make::live(state))
        .unwrap_or(TOP_BIT | state.last);
    let here: Vec<u64> = match state.channels.get(channel as usize) {
        Some(channel) => channel
            .services
            .iter()
            .filter_map(Service::handle)
            .collect(),
        None => Vec::new(),
    };
    let here = random.pick_any(&here).unwrap_or(anywhere);
    match random.below(10) {
        0 => anywhere,
        1 => TOP_BIT | random.pick(&[0, state.last, state.last.wrapping_add(1), u64::MAX]),
        2 => here ^ random.pick(&[1, 2, 1 << 32, 1 << 63]),
        _ => here,
    }
}

/// DATA with any bytes; now and then the longest, or one byte more.
fn data(random: &mut Random, handle: u64) -> Vec<u8> {
    let few = random.below(40);
    let length = match random.once_in(100) {
        true => random.pick(&[4_088, 4_089]),
        false => random.pick(&[0, 1, few, few, few]),
    };
    build::data(handle, &random.bytes(length))
}

/// Spoils a message in one way.
fn spoil(random: &mut Random, message: &mut Vec<u8>) {
    let length = message.len() as u64;
    match random.below(4) {
        0 => message.truncate(random.below(length) as usize),
        1 => message.push(0),
        2 => {
            let right = length as u32 - 8;
            let wrong = right.wrapping_add(random.pick(&[1, 8, 1 << 16, u32::MAX]));
            message[4..8].copy_from_slice(&wrong.to_be_bytes());
        }
        _ => {
            let other = random.pick(&[0, 1, 2, 3, 4, 5, 6, 7, 8, 9, 10, 11, 0x0900, u32::MAX]);
            message[..4].copy_from_slice(&other.to_be_bytes());
        }
    }
}

const WITH_PAIRS: [u32; 3] = [memory::CONFIGURE, memory::UNCONFIGURE, memory::QUERY];
const BARE: [u32; 2] = [memory::UNCONF_STATUS, memory::CANCEL];

/// A memory request; one in six is spoilt.
fn memory_message(random: &mut Random, state: &State) -> Vec<u8> {
    let any = random.next();
    let highest = random.pick(&state.highest).unwrap_or(any);
    let (below, above) = (highest.wrapping_sub(1), highest.wrapping_add(1));
    let halves = highest ^ 1 << 32;
    let number = random.pick(&[
        0,
        9,
        any,
        any,
        u64::MAX,
        highest,
        below,
        above,
        above,
        halves,
    ]);
    let bad = random.once_in(6);
    if random.once_in(3) {
        let argument = u32::from(bad && random.once_in(2));
        let mut message = build::memory(random.pick(&BARE), argument, number, &[]);
        if bad && argument == 0 {
            message.resize(random.pick(&[0, 15, 17, 32]), 0);
        }
        return message;
    }
    let memory_type = random.pick(&WITH_PAIRS);
    let few = random.between(1, 16);
    let most = random.between(1, 64);
    let count = match bad {
        true => random.pick(&[0, 1, few, most, 17, 64, 65]),
        false => random.pick(&[1, 2, few, few, most, 16, 64]),
    };
    let pairs: Vec<_> = (0..count).map(|_| make::pair(random, state)).collect();
    if bad {
        return spoilt_request(random, build::request(memory_type, number, &pairs));
    }
    build::request(memory_type, number, &pairs)
}

/// A request spoilt in one way, or in none.
fn spoilt_request(random: &mut Random, mut request: Vec<u8>) -> Vec<u8> {
    let length = request.len() as u64;
    match random.below(5) {
        0 => request.truncate(random.below(length) as usize),
        1 => request.push(0),
        2 => request[random.pick(&[0, 2, 3])] ^= 1,
        3 => request[random.pick(&[4, 5, 6, 7])] ^= 1,
        _ => {}
    }
    request
}
