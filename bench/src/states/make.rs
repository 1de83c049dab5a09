//! Sound states.

use super::{devices, orders, peers};
use independent::block::{MAX_BLOCKS, MAX_END, MAX_PAGES, PAGE};
use independent::generate::random::Random;
use independent::removal::MAX_RECORDS;
use independent::state::{CHANNELS, LAST_NUMBER, SLOTS, TOP_BIT};
use independent::{Block, Blocks, Pair, Removal, Service, Settled, State};

/// A sound state.
pub fn sound(random: &mut Random) -> State {
    let mut state = State {
        blocks: blocks(random),
        devices: devices::sound(random),
        orders: orders::sound(random),
        ids: peers::ids(random),
        last: last(random),
        ..State::default()
    };
    let any = random.up_to(SLOTS);
    let held = random.pick(&[0, 1, any, any, any, 63, 64]);
    state.held = held.min(state.last);
    channels(random, &mut state);
    peers::register(random, &mut state);
    state.removal = random.once_in(2).then(|| removal(random, &state));
    state.highest.fill_with(|| highest(random));
    state
}

/// A channel's highest request number, or none yet.
fn highest(random: &mut Random) -> Option<u64> {
    let any = random.next();
    let number = random.pick(&[0, 8, any, any, any >> 32, u64::MAX - 1, u64::MAX]);
    (!random.once_in(3)).then_some(number)
}

fn last(random: &mut Random) -> u64 {
    match random.below(10) {
        0 => random.pick(&[1, 1, 2, 63, 64, 65]),
        1 => random.pick(&[LAST_NUMBER - 1, LAST_NUMBER]),
        2..=4 => random.between(1, 200),
        _ => random.between(1, LAST_NUMBER),
    }
}

/// Ready and closed channels; services with distinct handles, which have the
/// top bit.
fn channels(random: &mut Random, state: &mut State) {
    let mut seen = Vec::new();
    let last = state.last;
    for channel in &mut state.channels {
        channel.ready = !random.once_in(4);
        for service in &mut channel.services {
            let any = random.up_to(last);
            let number = random.pick(&[any, any, any, any.min(20), 1, last]);
            let live = channel.ready && (1..=last).contains(&number) && !random.once_in(3);
            let handle = TOP_BIT | number;
            if live && !seen.contains(&handle) {
                seen.push(handle);
                *service = live_service(random, handle);
            }
        }
    }
}

/// An offered or registered service.
pub fn live_service(random: &mut Random, handle: u64) -> Service {
    if random.once_in(3) {
        return Service::Offered { handle };
    }
    let minor = random.pick(&[0, 0, 1, 65_535]);
    Service::Registered { handle, minor }
}

/// 64 blocks that keep the rules, touching or apart, of which a random
/// number counts; the end of the last that counts may be 2^63. The blocks past
/// the count stay, are 0, or are anything.
fn blocks(random: &mut Random) -> Blocks {
    let any = random.up_to(MAX_BLOCKS as u64);
    let few = random.up_to(16);
    let count = random.pick(&[any, any, few, few, 0, 1, 16, 64]) as usize;
    let mut list = [Block::default(); MAX_BLOCKS];
    let mut floor = random.pick(&[0, PAGE, 0x1000_0000, 0xffff_e000, 1 << 40]);
    let mut end = 0;
    for (number, block) in list.iter_mut().enumerate() {
        let gap = random.pick(&[0, 0, 1, 50, 1 << 24]);
        *block = self::block(random, floor + gap * PAGE);
        floor = end_of(block);
        if number < count {
            end = floor;
        }
    }
    if random.once_in(4) {
        let rise = MAX_END - end;
        list.iter_mut().for_each(|block| block.base += rise);
    }
    let past = &mut list[count..];
    match random.below(3) {
        0 => past.fill(Block::default()),
        1 => past.fill_with(|| any_block(random)),
        _ => {}
    }
    Blocks { count, list }
}

/// A block that keeps the rules.
fn block(random: &mut Random, base: u64) -> Block {
    let few = random.between(1, 12);
    let more = random.between(1, 300_000);
    let pages = random.pick(&[few, few, few, more, 65_535, 65_536, MAX_PAGES]);
    let mut block = Block {
        base,
        pages,
        configured: !random.once_in(4),
        ..Block::default()
    };
    if block.configured && random.once_in(4) {
        let any = random.below(pages);
        block.first = random.pick(&[0, any, any]);
        let room = pages - block.first;
        block.permanent = random.between(1, room);
        block.permanent = random.pick(&[block.permanent, room]);
    }
    block
}

/// A block that may break every rule.
fn any_block(random: &mut Random) -> Block {
    let shift = random.below(64);
    Block {
        base: random.next() >> shift,
        pages: random.next() >> shift,
        first: random.next() >> shift,
        permanent: random.next() >> shift,
        configured: random.once_in(2),
    }
}

/// The end of a block, wrapped at 2^64.
pub fn end_of(block: &Block) -> u64 {
    block.base.wrapping_add(pair_of(block).size)
}

fn pair_of(block: &Block) -> Pair {
    Pair {
        addr: block.base,
        size: block.pages.wrapping_mul(PAGE),
    }
}

/// The blocks that count.
fn listed(state: &State) -> &[Block] {
    &state.blocks.list[..state.blocks.count.min(MAX_BLOCKS)]
}

/// A pair that names a block, one past the count, nearly one, or none.
pub fn pair(random: &mut Random, state: &State) -> Pair {
    let past = random.pick(&state.blocks.list);
    let block = random.pick_any(listed(state)).unwrap_or(past);
    let Pair { addr, size } = pair_of(&block);
    let any = random.next();
    let (addr, size) = match random.below(20) {
        0 => (addr, size.wrapping_add(PAGE)),
        1 => (addr, size.wrapping_sub(PAGE)),
        2 => (addr.wrapping_add(PAGE), size),
        3 => (addr, random.pick(&[0, 1, size ^ 1, any])),
        4 => (any, random.pick(&[0, 1, size, any, u64::MAX])),
        5 => return pair_of(&past),
        _ => (addr, size),
    };
    Pair { addr, size }
}

/// The pages of the configured block that the record at the position names.
pub fn pages_at_position(state: &State, removal: &Removal) -> Option<u64> {
    let count = removal.count.min(MAX_RECORDS);
    let record = removal.records[..count].get(removal.position)?;
    let named = listed(state)
        .iter()
        .find(|block| pair_of(block) == *record && block.configured)?;
    Some(named.pages)
}

/// All live handles.
pub fn live(state: &State) -> Vec<u64> {
    let services = state.channels.iter().flat_map(|channel| &channel.services);
    services.filter_map(Service::handle).collect()
}

/// A sound removal for a sound state.
pub fn removal(random: &mut Random, state: &State) -> Removal {
    let channel = random.below(CHANNELS as u64);
    let last = TOP_BIT | state.last;
    let any = TOP_BIT | random.up_to(state.last);
    let other = random.pick_any(&live(state)).unwrap_or(any).min(last);
    let own = state.channels[channel as usize].services[0].handle();
    let own = own.unwrap_or(any).min(last);
    let most = random.between(1, MAX_RECORDS as u64);
    let few = random.between(1, 16);
    let count = random.pick(&[1, 2, 3, few, most, most, 16, 64]);
    let position = random.up_to(count);
    let position = random.pick(&[0, position, position, count]) as usize;
    let mut removal = Removal {
        channel,
        handle: random.pick(&[own, own, own, own, other, any, TOP_BIT, last]),
        request: random.next(),
        count: count as usize,
        records: [Pair::default(); MAX_RECORDS],
        position,
        collected: 0,
        cancelled: random.once_in(4),
        settled: [Settled::Ok; MAX_RECORDS],
    };
    removal.records.fill_with(|| pair(random, state));
    let settled = [Settled::Ok, Settled::NoWork];
    removal.settled.fill_with(|| random.pick(&settled));
    if let Some(pages) = pages_at_position(state, &removal) {
        let below = random.below(pages.max(1));
        removal.collected = random.pick(&[0, below, below, pages.saturating_sub(1)]);
    }
    removal
}
