//! Changes of one thing in a state to a boundary value or just past it.

use super::make::{self, end_of};
use super::{devices, orders, peers};
use independent::block::{MAX_BLOCKS, MAX_END, MAX_PAGES, PAGE};
use independent::generate::random::Random;
use independent::removal::MAX_RECORDS;
use independent::state::{LAST_NUMBER, TOP_BIT};
use independent::{Block, Removal, Service, State};

/// Changes one thing; the state may stay sound.
pub fn change(random: &mut Random, state: &mut State) {
    match random.below(42) {
        30..=35 => peers::change_ids(random, &mut state.ids),
        36.. => peers::change(random, state),
        28 | 29 => orders::change(random, &mut state.orders),
        20..=27 => devices::change(random, &mut state.devices),
        0..=5 => block(random, state),
        6 => block_count(random, state),
        7 => swap_blocks(random, state),
        8..=11 => service(random, state),
        12 => {
            let channel = random.below(4) as usize;
            state.channels[channel].ready ^= true;
        }
        13 => last(random, state),
        14 if random.once_in(3) => no_entry(state),
        14 => held(random, state),
        15 => state.removal = None,
        _ => removal(random, state),
    }
}

/// A block's number; often the last that counts.
fn block_number(random: &mut Random, state: &State) -> usize {
    let last = state.blocks.count.clamp(1, MAX_BLOCKS) as u64 - 1;
    let any = random.up_to(last);
    random.pick(&[any, last]) as usize
}

fn block(random: &mut Random, state: &mut State) {
    let at = block_number(random, state);
    let list = &mut state.blocks.list;
    let floor = at.checked_sub(1).map_or(0, |before| end_of(&list[before]));
    let next = list.get(at + 1).map_or(MAX_END, |block| block.base);
    let block = &mut list[at];
    match random.below(7) {
        0 => base(random, block, floor),
        1 => {
            let step = random.pick(&[1, 4_096, PAGE - 1, PAGE, PAGE.wrapping_neg()]);
            block.base = block.base.wrapping_add(step);
        }
        2 => pages(random, block, next),
        3 => {
            let first = [0, 1, block.pages, block.pages.wrapping_add(1), u64::MAX];
            block.first = random.pick(&first);
        }
        4 => {
            let permanent = [0, 1, block.pages, block.pages.wrapping_add(1), u64::MAX];
            block.permanent = random.pick(&permanent);
        }
        5 => permanent_pages(random, block),
        _ => block.configured ^= true,
    }
}

/// The base, beside the end before it, 2^63 and 2^64.
fn base(random: &mut Random, block: &mut Block, floor: u64) {
    let size = block.pages.wrapping_mul(PAGE);
    let highest = MAX_END.wrapping_sub(size);
    block.base = random.pick(&[
        0,
        floor,
        floor.wrapping_sub(PAGE),
        highest,
        highest.wrapping_add(PAGE),
        MAX_END,
        size.wrapping_neg(),
        PAGE.wrapping_neg(),
    ]);
}

/// The pages, beside their bounds, the next block, 2^63 and 2^64.
fn pages(random: &mut Random, block: &mut Block, next: u64) {
    let room = next.wrapping_sub(block.base) / PAGE;
    let wrapped = block.base.wrapping_neg() / PAGE;
    block.pages = random.pick(&[
        0,
        1,
        room,
        room.wrapping_add(1),
        MAX_PAGES,
        MAX_PAGES + 1,
        wrapped,
        wrapped + 1,
        1 << 50,
        1 << 51,
        (1 << 51) + 1,
        u64::MAX,
    ]);
}

/// First and count of the permanent pages, beside the block's end and with a
/// sum that wraps at 2^64.
fn permanent_pages(random: &mut Random, block: &mut Block) {
    let any = random.up_to(block.pages);
    block.first = random.pick(&[0, any, any, block.pages, u64::MAX, 1 << 63]);
    let room = block.pages.wrapping_sub(block.first);
    let wrapped = block.first.wrapping_neg();
    let permanent = [
        room,
        room.wrapping_add(1),
        wrapped,
        wrapped.wrapping_add(1),
        1,
    ];
    block.permanent = random.pick(&permanent);
    block.configured = !random.once_in(6);
}

fn block_count(random: &mut Random, state: &mut State) {
    let count = state.blocks.count;
    state.blocks.count = random.pick(&[
        0,
        count.wrapping_add(1),
        count.wrapping_add(1),
        count.saturating_sub(1),
        16,
        17,
        64,
        65,
        66,
        1 << 32,
        usize::MAX,
    ]);
}

/// Two blocks change places, with their bases or without.
fn swap_blocks(random: &mut Random, state: &mut State) {
    let (one, two) = (block_number(random, state), block_number(random, state));
    let list = &mut state.blocks.list;
    list.swap(one, two);
    if random.once_in(2) {
        let base = list[one].base;
        list[one].base = list[two].base;
        list[two].base = base;
    }
}

/// A service becomes idle, or live with a handle at or past a bound, or with
/// that of another.
fn service(random: &mut Random, state: &mut State) {
    let last = state.last;
    let any = random.up_to(last);
    let other = random.pick_any(&make::live(state));
    let other = other.unwrap_or(TOP_BIT | any);
    let handle = random.pick(&[
        0,
        any,
        TOP_BIT,
        TOP_BIT | 1,
        TOP_BIT | any,
        TOP_BIT | last,
        TOP_BIT | last.wrapping_add(1),
        other ^ TOP_BIT,
        other,
        other,
        other,
        other | 1 << 32,
        u64::MAX,
    ]);
    let (channel, number) = (random.below(4) as usize, random.below(4) as usize);
    state.channels[channel].services[number] = match random.once_in(10) {
        true => Service::Idle,
        false => make::live_service(random, handle),
    };
}

fn last(random: &mut Random, state: &mut State) {
    let highest = make::live(state).into_iter().max().unwrap_or(0) & !TOP_BIT;
    let of_removal = state.removal.map_or(0, |removal| removal.handle) & !TOP_BIT;
    state.last = random.pick(&[
        0,
        highest,
        highest.wrapping_sub(1),
        of_removal,
        of_removal.wrapping_sub(1),
        state.held,
        state.held.wrapping_sub(1),
        LAST_NUMBER,
        LAST_NUMBER + 1,
        LAST_NUMBER + 1 + state.last.min(100),
        u64::MAX,
    ]);
}

/// Last number 0, with nothing else that is not sound with it.
fn no_entry(state: &mut State) {
    (state.last, state.held) = (0, 0);
    for channel in &mut state.channels {
        channel.services = [Service::Idle; 4];
    }
    if let Some(removal) = &mut state.removal {
        removal.handle = TOP_BIT;
    }
}

fn held(random: &mut Random, state: &mut State) {
    let past = state.last.wrapping_add(1);
    let held = [0, 1, 63, 64, 65, 66, state.last, past, 1 << 32, u64::MAX];
    state.held = random.pick(&held);
}

/// Changes the removal, after one was made if there was none.
fn removal(random: &mut Random, state: &mut State) {
    let held = state.removal;
    let mut removal = held.unwrap_or_else(|| make::removal(random, state));
    let past = state.last.wrapping_add(1);
    match random.below(8) {
        0 => removal.channel = random.pick(&[3, 4, 5, 1 << 32, u64::MAX]),
        1 => {
            let number = random.pick(&[0, state.last, past, 1 << 32, u64::MAX]);
            let bare = [removal.handle ^ TOP_BIT, 0, number];
            let bare = random.pick(&bare);
            removal.handle = random.pick(&[TOP_BIT | number, TOP_BIT | number, bare]);
        }
        2 => places(random, &mut removal),
        3 | 4 => {
            let pages = make::pages_at_position(state, &removal).unwrap_or(0);
            let (below, above) = (pages.wrapping_sub(1), pages.wrapping_add(1));
            removal.collected = random.pick(&[0, 1, below, pages, pages, above, u64::MAX]);
        }
        5 => {
            let at = removal.position.min(MAX_RECORDS - 1);
            removal.records[at] = make::pair(random, state);
        }
        6 => removal.position = removal.position.wrapping_add(1),
        _ => removal.cancelled ^= true,
    }
    state.removal = Some(removal);
}

/// The removal's count or position.
fn places(random: &mut Random, removal: &mut Removal) {
    let Removal {
        count, position, ..
    } = removal;
    if random.once_in(2) {
        let below = position.wrapping_sub(1);
        *count = random.pick(&[0, 1, *position, below, 17, 64, 65, 66, 1 << 32, usize::MAX]);
    } else {
        let (below, past) = (count.wrapping_sub(1), count.wrapping_add(1));
        *position = random.pick(&[0, below, *count, past, 17, 64, 65, 1 << 32, usize::MAX]);
    }
}
