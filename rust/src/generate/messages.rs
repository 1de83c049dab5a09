//! Random messages: well-formed ones of every type, and damaged ones.

use super::random::Random;
use super::{devices, orders, peers};
use crate::block::{Block, Pair, PAGE};
use crate::removal::MAX_RECORDS;
use crate::state::{Service, State, CHANNELS, TOP_BIT};
use crate::{build, memory, wire};

/// A live service: its channel, number, handle, and whether it is registered.
#[derive(Clone, Copy)]
pub struct Live {
    pub channel: u64,
    pub service: u64,
    pub handle: u64,
    pub registered: bool,
}

/// All live services.
pub fn live(state: &State) -> Vec<Live> {
    let mut all = Vec::new();
    for (channel, services) in (0..).zip(state.channels.iter().map(|channel| channel.services)) {
        for (service, held) in (0..).zip(services) {
            all.extend(held.handle().map(|handle| Live {
                channel,
                service,
                handle,
                registered: matches!(held, Service::Registered { .. }),
            }));
        }
    }
    all
}

/// A random live service that `fits`.
pub fn pick_live(random: &mut Random, state: &State, fits: impl Fn(&Live) -> bool) -> Option<Live> {
    let fitting: Vec<Live> = live(state).into_iter().filter(fits).collect();
    random.pick_any(&fitting)
}

/// A handle for a message on `channel`: one of ours that is live there, live
/// elsewhere, old, or that agrees with a live one in 32 bits or without its top
/// bit only, or one of the peer's.
pub fn handle(random: &mut Random, state: &State, channel: u64) -> u64 {
    let kind = random.weighted(&[50, 10, 13, 6, 5, 6, 6, 5, 10]);
    let here = kind == 0 || random.once_in(2);
    let near = pick_live(random, state, |live| (live.channel == channel) == here)
        .map_or(TOP_BIT | state.last, |live| live.handle);
    match kind {
        0 | 1 => near,
        2 => TOP_BIT | random.between(0, state.last),
        3 => near | random.pick(&[1 << 32, 1 << 62, 0xffff_ffff << 32, 7 << 32]),
        4 => near << 32,
        5 => near ^ random.between(1, 15),
        6 => near ^ TOP_BIT,
        7 => {
            let next = TOP_BIT | (state.last + 1);
            random.pick(&[0, u64::MAX, TOP_BIT, next, 1 << 32, 0xffff_ffff])
        }
        _ => peers::handle(random, state),
    }
}

/// A message of a random type that is mostly well formed.
pub fn any(random: &mut Random, state: &State, channel: u64) -> Vec<u8> {
    let handle = handle(random, state, channel);
    match random.below(12) {
        0 => init_req(random),
        1 => peers::reg_req(random, state, channel),
        2 | 3 => registration(random, handle),
        4 => build::of_handle(wire::UNREG, handle),
        5 | 6 => noted(random, handle),
        7 => build::data(handle, &host_data(random)),
        8 => {
            let message = good_memory(random, state, channel);
            build::data(handle, &message)
        }
        9 => {
            let number = random.below(4);
            build::data(handle, &devices::request(random, state, number))
        }
        10 => {
            let service = random.between(2, 3);
            build::data(handle, &orders::request(random, service))
        }
        _ => {
            let message = bad_memory(random, state, channel);
            build::data(handle, &message)
        }
    }
}

pub fn init_req(random: &mut Random) -> Vec<u8> {
    let major = random.pick(&[1, 1, 1, 1, 0, 2, 3, 0x100, 0xffff]);
    build::init_req(major, random.pick(&[0, 0, 1, 0xffff]))
}

/// REG_ACK or REG_NACK.
pub fn registration(random: &mut Random, handle: u64) -> Vec<u8> {
    if random.once_in(3) {
        return build::reg_nack(handle, random.between(0, 3), random.below(3) as u16);
    }
    build::reg_ack(handle, random.pick(&[0, 0, 1, 7, 0xffff]))
}

/// UNREG_ACK, UNREG_NACK or NACK.
pub fn noted(random: &mut Random, handle: u64) -> Vec<u8> {
    match random.below(3) {
        0 => build::of_handle(wire::UNREG_ACK, handle),
        1 => build::of_handle(wire::UNREG_NACK, handle),
        _ => build::nack(handle, random.between(0, 4)),
    }
}

/// Data for any service: any bytes, now and then the longest.
pub fn host_data(random: &mut Random) -> Vec<u8> {
    let length = match random.weighted(&[60, 15, 20, 3, 2]) {
        0 => random.between(1, 24),
        1 => 0,
        2 => random.between(25, 100),
        3 => (wire::MAX_PAYLOAD - 8) as u64,
        _ => random.between(101, 2_000),
    };
    random.bytes(length)
}

/// A type that a message may be given in place of its own.
fn other_type(random: &mut Random) -> u32 {
    let any = random.next() as u32;
    random.pick(&[0, 1, 1, 2, 2, 3, 4, 5, 6, 7, 8, 9, 10, 11, 12, 0x0900, any])
}

/// A message spoilt in one way.
pub fn damaged(random: &mut Random, state: &State, channel: u64) -> Vec<u8> {
    let mut message = any(random, state, channel);
    let length = message.len() as u64;
    match random.weighted(&[20, 15, 20, 25, 6, 10, 4]) {
        0 => message.truncate(random.below(length) as usize),
        1 => {
            let more = random.pick(&[1, 1, 2, 4, 8]);
            message.extend(random.bytes(more));
        }
        2 => {
            let payload = (length - 8) as u32;
            let wrong = [
                payload + 1,
                payload.wrapping_sub(1),
                0,
                4_096,
                4_097,
                u32::MAX,
                payload << 8,
            ];
            message[4..8].copy_from_slice(&random.pick(&wrong).to_be_bytes());
        }
        3 => {
            let ds_type = other_type(random);
            message[..4].copy_from_slice(&ds_type.to_be_bytes());
        }
        4 => {
            let payload = random.pick(&[4_096, 4_097, 4_097, 4_104]);
            message = build::ds(random.pick(&[3, 9, 9, 9]), &random.bytes(payload));
        }
        5 => {
            let length = random.between(0, 40);
            message = random.bytes(length);
        }
        _ => message = build::ds(wire::DATA, &vec![0x5a; random.pick(&[8_184, 8_183])]),
    }
    message
}

fn pair_of(block: &Block) -> Pair {
    Pair {
        addr: block.base,
        size: block.pages * PAGE,
    }
}

/// A pair that hardly ever names a block.
fn unknown(random: &mut Random) -> Pair {
    Pair {
        addr: random.next() >> random.below(40) & !(PAGE - 1),
        size: random.between(1, 1 << 20) * PAGE,
    }
}

/// A pair that names a block, nearly names one, or is unknown.
fn pair(random: &mut Random, state: &State) -> Pair {
    let unknown = unknown(random);
    let blocks: Vec<Pair> = state.blocks.listed().iter().map(pair_of).collect();
    let exact = random.pick_any(&blocks).unwrap_or(unknown);
    let other = random.pick_any(&blocks).unwrap_or(unknown);
    let Pair { addr, size } = exact;
    let top = u64::MAX - random.below(1 << 20);
    let (addr, size) = match random.weighted(&[60, 5, 4, 4, 8, 4, 5, 3, 3]) {
        0 => return exact,
        1 => (addr, size + PAGE),
        2 => (addr, size - PAGE),
        3 => (addr.wrapping_add(PAGE), size),
        4 => return unknown,
        5 => (random.pick(&[addr, 0, top]), 0),
        6 => (top, random.pick(&[size, 1 << 20, u64::MAX])),
        7 => (addr ^ 1 << 40, size ^ random.pick(&[0, 1 << 40])),
        _ => (addr, other.size),
    };
    Pair { addr, size }
}

/// `count` pairs; some of them are the same where there are few blocks.
fn pairs(random: &mut Random, state: &State, count: u64) -> Vec<Pair> {
    (0..count).map(|_| pair(random, state)).collect()
}

/// Repeats some pairs of a list: next to the first, further on, or after an
/// unknown pair, at which CONFIGURE and a removal fail. At most 64 stay.
fn repeat(random: &mut Random, list: &mut Vec<Pair>) {
    let times = if list.len() > 16 {
        [4, 8, 12, 16]
    } else {
        [1, 1, 2, 4]
    };
    for _ in 0..random.pick(&times) {
        // Room for what is put in.
        list.truncate(MAX_RECORDS - 2);
        let at = random.below(list.len() as u64);
        let place = match random.weighted(&[40, 40, 20]) {
            0 => at + 1,
            1 => random.between(at + 1, list.len() as u64),
            _ => {
                list.push(unknown(random));
                list.len() as u64
            }
        };
        list.insert(place as usize, list[at as usize]);
    }
    list.truncate(MAX_RECORDS);
}

/// Pairs that name blocks, in random order; none if no block fits.
fn named(random: &mut Random, state: &State, fits: fn(&Block) -> bool) -> Vec<Pair> {
    let blocks = state.blocks.listed().iter();
    let mut list: Vec<Pair> = blocks.filter(|block| fits(block)).map(pair_of).collect();
    random.shuffle(&mut list);
    let more = random.between(17, 63);
    list.truncate(random.pick(&[1, 1, 2, 3, 4, 8, 16, more as usize, 64, 64]));
    list
}

fn record_count(random: &mut Random) -> u64 {
    match random.weighted(&[30, 20, 15, 18, 3, 4, 6, 4]) {
        0 => 1,
        1 => 2,
        2 => 3,
        3 => random.between(4, 14),
        4 => 15,
        5 => 16,
        6 => random.between(17, 63),
        _ => 64,
    }
}

/// The pairs of a request of right form, 1 to 64, a third of the lists with repeats.
fn good_pairs(random: &mut Random, state: &State, memory_type: u32) -> Vec<Pair> {
    let plain: fn(&Block) -> bool = match memory_type {
        memory::CONFIGURE => |block| !block.configured,
        memory::UNCONFIGURE => |block| block.permanent == 0 && block.configured,
        _ => |block| block.permanent > 0,
    };
    let mut list = match random.weighted(&[45, 25, 30]) {
        0 => named(random, state, plain),
        1 => named(random, state, |_| true),
        _ => Vec::new(),
    };
    if list.is_empty() {
        let count = record_count(random);
        list = pairs(random, state, count);
    }
    if random.once_in(3) {
        repeat(random, &mut list);
    }
    list
}

/// A number for the first request of a registration: any, seldom so high that
/// none or few can follow.
fn first_number(random: &mut Random) -> u64 {
    let any = random.next();
    match random.weighted(&[20, 15, 10, 25, 20, 4, 4, 2]) {
        0 => 0,
        1 => 1,
        2 => 9,
        3 => any >> 32,
        4 => any >> 1,
        5 => any,
        6 => u64::MAX,
        _ => u64::MAX - 1,
    }
}

/// A number for a request on `channel`: mostly above the highest of the
/// registration there, else equal to it, below it, or another channel's.
fn request_number(random: &mut Random, state: &State, channel: u64) -> u64 {
    let here = state.highest.get(channel as usize).copied().flatten();
    let Some(highest) = here else {
        return first_number(random);
    };
    let room = u64::MAX - highest;
    let other = random.pick(&state.highest).unwrap_or(0);
    match random.weighted(&[600, 150, 50, 20, 2, 60, 50, 40, 8, 20]) {
        0 => highest.saturating_add(1),
        1 => highest.saturating_add(random.between(2, 1_000)),
        2 => highest + random.up_to(room >> 32),
        3 => highest + random.up_to(room),
        4 => u64::MAX,
        5 => highest,
        6 => highest.saturating_sub(1),
        7 => random.up_to(highest),
        8 => 0,
        _ => other,
    }
}

/// A request of right form and one type, for `channel`.
pub fn request(random: &mut Random, state: &State, channel: u64, memory_type: u32) -> Vec<u8> {
    let number = request_number(random, state, channel);
    let bare = memory_type == memory::UNCONF_STATUS || memory_type == memory::CANCEL;
    let pairs = match bare {
        true => Vec::new(),
        false => good_pairs(random, state, memory_type),
    };
    build::request(memory_type, number, &pairs)
}

/// An UNCONFIGURE of 17 to 64 records for `channel`: blocks without permanent
/// pages, configured or not, many of them again and again, and half of the time
/// a record after the sixteenth at which the removal fails.
pub fn long_removal(random: &mut Random, state: &State, channel: u64) -> Vec<u8> {
    let any = random.between(17, 64);
    let count = random.pick(&[17, any, any, 64]) as usize;
    let blocks = state.blocks.listed();
    let free = blocks.iter().filter(|block| block.permanent == 0);
    let mut list: Vec<Pair> = free.map(pair_of).collect();
    random.shuffle(&mut list);
    list.truncate(count);
    if list.is_empty() {
        list.push(unknown(random));
    }
    while list.len() < count {
        let again = random.pick(&list);
        let place = random.up_to(list.len() as u64) as usize;
        list.insert(place, again);
    }
    let failing = blocks.iter().filter(|block| block.permanent > 0);
    let failing: Vec<Pair> = failing.map(pair_of).collect();
    let place = random.between(16, count as u64 - 1) as usize;
    match (random.below(4), random.pick_any(&failing)) {
        (0, Some(permanent)) => list[place] = permanent,
        (1, _) => list[place] = unknown(random),
        _ => {}
    }
    let number = request_number(random, state, channel);
    build::request(memory::UNCONFIGURE, number, &list)
}

const REQUESTS: [u32; 5] = [
    memory::CONFIGURE,
    memory::UNCONFIGURE,
    memory::UNCONF_STATUS,
    memory::CANCEL,
    memory::QUERY,
];

/// A request of right form and any type, for `channel`.
pub fn good_memory(random: &mut Random, state: &State, channel: u64) -> Vec<u8> {
    let memory_type = REQUESTS[random.weighted(&[30, 25, 15, 8, 30])];
    request(random, state, channel, memory_type)
}

/// A memory message that is spoilt in one way; a few turn out good.
pub fn bad_memory(random: &mut Random, state: &State, channel: u64) -> Vec<u8> {
    let memory_type = random.pick(&REQUESTS);
    let mut message = request(random, state, channel, memory_type);
    let length = message.len() as u64;
    let argument = u32::from(message[7]);
    let wrong = [
        argument + 1,
        argument.wrapping_sub(1),
        0,
        1,
        65,
        argument | 0x1_0000,
        argument << 24,
    ];
    match random.weighted(&[20, 15, 15, 8, 12, 14, 2]) {
        0 => message.truncate(random.below(16) as usize),
        1 => message.truncate(random.between(16, length.max(17) - 1) as usize),
        2 => message[4..8].copy_from_slice(&random.pick(&wrong).to_be_bytes()),
        3 => {
            let more = random.pick(&[1, 8, 15, 16]);
            message.extend(random.bytes(more));
        }
        4 => {
            let any = random.next() as u32;
            let other = random.pick(&[0, 0x4d, 0x6f, 0x65, 0x4d44, 0x4d43_0000, 0x1_4d51, any]);
            message[..4].copy_from_slice(&other.to_be_bytes());
        }
        5 => {
            let count = random.pick(&[0, 65, 65, 66]);
            let list = pairs(random, state, count);
            let number = request_number(random, state, channel);
            message = build::request(memory_type, number, &list);
        }
        _ => message.resize(wire::MAX_PAYLOAD - 8, 0),
    }
    message
}

/// A channel that a message may come on.
pub fn channel(random: &mut Random) -> u64 {
    random.below(CHANNELS as u64)
}
