//! The independent agent's state as the proved agent's words, by the map at
//! the head of crates/model/specs/Layout.antt.

use crate::proved::Words;
use independent::block::{BLOCK_WORDS, MAX_BLOCKS};
use independent::device::{DEVICE_WORDS, MAX_DEVICES, MAX_NAME};
use independent::peer::{Peers, ID_WORDS, MAX_ID, MAX_IDS};
use independent::removal::MAX_RECORDS;
use independent::state::{CHANNELS, SERVICES};
use independent::{Block, Order, Orders, Removal, Service, Settled, State};
use std::ops::Range;

const SERVICE: usize = CHANNELS;
const SERVICE_WORDS: usize = 3;
const BLOCK_COUNT: usize = SERVICE + CHANNELS * SERVICES * SERVICE_WORDS;
const BLOCK: usize = BLOCK_COUNT + 1;
const LAST: usize = BLOCK + MAX_BLOCKS * BLOCK_WORDS;
const HELD: usize = LAST + 1;
const OUTSTANDING: usize = HELD + 1;
const CANCELLED: usize = OUTSTANDING + 1;
const CHANNEL: usize = CANCELLED + 1;
const COUNT: usize = CHANNEL + 3;
const POSITION: usize = COUNT + 1;
const ADDRESS: usize = POSITION + 2;
const SIZE: usize = ADDRESS + MAX_RECORDS;
const RESULT: usize = SIZE + MAX_RECORDS;
const NUMBERED: usize = RESULT + MAX_RECORDS;
const NUMBER_WORDS: usize = 2;
pub const DEVICE_COUNT: usize = NUMBERED + CHANNELS * NUMBER_WORDS;
pub const DEVICE: usize = DEVICE_COUNT + 1;
const NAME_BYTES: usize = 3;
const NAME: usize = 4;
/// Of services 2 and 3.
pub const PERMISSION: usize = DEVICE + MAX_DEVICES * DEVICE_WORDS;
pub const ORDER: usize = PERMISSION + 2;
const DELAY: usize = ORDER + 1;
pub const ID_COUNT: usize = DELAY + 1;
pub const ID: usize = ID_COUNT + 1;
const ID_BYTES: usize = 2;
const ID_NAME: usize = 3;
/// By channel a word with a mark for each place of an id, from its lowest bit on,
/// then a handle and a minor version for each.
pub const PEER: usize = ID + MAX_IDS * ID_WORDS;
pub const PEER_WORDS: usize = 1 + 2 * MAX_IDS;
const HANDLE: usize = 1;
pub const MINOR: usize = HANDLE + MAX_IDS;
/// The bits of that word past the last place.
const PAST_PLACES: u64 = u64::MAX << MAX_IDS;
const END: usize = PEER + CHANNELS * PEER_WORDS;

fn service_words(service: &Service) -> [u64; SERVICE_WORDS] {
    match *service {
        Service::Idle => [0, 0, 0],
        Service::Offered { handle } => [1, handle, 0],
        Service::Registered { handle, minor } => [2, handle, minor.into()],
    }
}

fn block_words(block: &Block) -> [u64; BLOCK_WORDS] {
    let configured = block.configured.into();
    [
        block.base,
        block.pages,
        block.first,
        block.permanent,
        configured,
    ]
}

fn put_removal(words: &mut Words, removal: &Removal) {
    words[OUTSTANDING] = 1;
    words[CANCELLED] = removal.cancelled.into();
    words[CHANNEL..ADDRESS].copy_from_slice(&[
        removal.channel,
        removal.handle,
        removal.request,
        removal.count as u64,
        removal.position as u64,
        removal.collected,
    ]);
    for (at, pair) in removal.records.iter().enumerate() {
        words[ADDRESS + at] = pair.addr;
        words[SIZE + at] = pair.size;
        words[RESULT + at] = match removal.settled[at] {
            Settled::Ok => 0,
            Settled::NoWork => 4,
        };
    }
}

/// Permissions, the order, and a shutdown's delay, else 0.
fn order_words(orders: &Orders) -> [u64; ID_COUNT - PERMISSION] {
    let [shutdown, panic] = orders.permitted.map(u64::from);
    let order = match orders.waiting {
        None => [0, 0],
        Some(Order::Shutdown { delay }) => [1, delay],
        Some(Order::Panic) => [2, 0],
    };
    [shutdown, panic, order[0], order[1]]
}

/// A channel's marks, handles and minor versions.
fn peer_words(peers: &Peers) -> [u64; PEER_WORDS] {
    let mut words = [0; PEER_WORDS];
    for place in 0..MAX_IDS {
        words[0] |= u64::from(peers.has(place)) << place;
        words[HANDLE + place] = peers.handles[place];
        words[MINOR + place] = peers.minors[place].into();
    }
    words
}

/// The words of a state; without a removal its words are 0.
pub fn words_of(state: &State) -> Words {
    let mut words = [0; END];
    for (number, channel) in state.channels.iter().enumerate() {
        words[number] = channel.ready.into();
        for (service, held) in channel.services.iter().enumerate() {
            let at = SERVICE + (number * SERVICES + service) * SERVICE_WORDS;
            words[at..at + SERVICE_WORDS].copy_from_slice(&service_words(held));
        }
    }
    words[BLOCK_COUNT] = state.blocks.count as u64;
    for (number, block) in state.blocks.list.iter().enumerate() {
        let at = BLOCK + number * BLOCK_WORDS;
        words[at..at + BLOCK_WORDS].copy_from_slice(&block_words(block));
    }
    words[LAST] = state.last;
    words[HELD] = state.held;
    if let Some(removal) = &state.removal {
        put_removal(&mut words, removal);
    }
    for (number, highest) in state.highest.iter().enumerate() {
        let at = NUMBERED + number * NUMBER_WORDS;
        let highest = highest.map_or([0, 0], |highest| [1, highest]);
        words[at..at + NUMBER_WORDS].copy_from_slice(&highest);
    }
    words[DEVICE_COUNT] = state.devices.count as u64;
    for (number, device) in state.devices.list.iter().enumerate() {
        let at = DEVICE + number * DEVICE_WORDS;
        words[at..at + DEVICE_WORDS].copy_from_slice(&device.words());
    }
    words[PERMISSION..ID_COUNT].copy_from_slice(&order_words(&state.orders));
    words[ID_COUNT] = state.ids.count as u64;
    for (number, id) in state.ids.list.iter().enumerate() {
        let at = ID + number * ID_WORDS;
        words[at..at + ID_WORDS].copy_from_slice(&id.to_words());
    }
    for (number, peers) in state.peers.iter().enumerate() {
        let at = PEER + number * PEER_WORDS;
        words[at..at + PEER_WORDS].copy_from_slice(&peer_words(peers));
    }
    words
}

/// The block list, the device list and the id list in a state's words, as setup
/// takes them.
pub fn lists_of(words: &Words) -> [Vec<u64>; 3] {
    let blocks = words[BLOCK_COUNT].min(MAX_BLOCKS as u64) as usize;
    let devices = words[DEVICE_COUNT].min(MAX_DEVICES as u64) as usize;
    let blocks = &words[BLOCK..BLOCK + blocks * BLOCK_WORDS];
    let devices = &words[DEVICE..DEVICE + devices * DEVICE_WORDS];
    let ids = words[ID_COUNT].min(MAX_IDS as u64) as usize;
    let ids = &words[ID..ID + ids * ID_WORDS];
    [blocks, devices, ids].map(|list| list.to_vec())
}

/// The words of devices after a call, those without a meaning too: as they
/// were given, but for the states of the devices that count.
pub fn devices_after(given: &Words, state: &State) -> Vec<u64> {
    let mut words = devices_in(given).to_vec();
    let listed = state.devices.list.iter().take(state.devices.count);
    for (number, device) in listed.enumerate() {
        words[DEVICE - DEVICE_COUNT + number * DEVICE_WORDS + 1] = device.configured.into();
    }
    words
}

/// The words of devices in a state.
pub fn devices_in(words: &Words) -> &[u64] {
    &words[DEVICE_COUNT..PERMISSION]
}

/// The words of permissions and the order after a call, that of the delay
/// included: as they were given, but for a permission set and, where an order
/// was left or taken, both of its words.
pub fn orders_after(
    given: &Words,
    before: &Orders,
    after: &Orders,
) -> [u64; ID_COUNT - PERMISSION] {
    let mut words = order_words(after);
    if before.waiting == after.waiting {
        words[ORDER - PERMISSION..].copy_from_slice(&given[ORDER..ID_COUNT]);
    }
    words
}

/// The words of permissions and the order in a state.
pub fn orders_in(words: &Words) -> &[u64] {
    &words[PERMISSION..ID_COUNT]
}

/// The words of a channel's request numbers that say nothing: both while the
/// memory service is not registered there, and the highest while there is none.
fn free_of_numbers(words: &Words, channel: usize) -> Range<usize> {
    let at = NUMBERED + channel * NUMBER_WORDS;
    let end = at + NUMBER_WORDS;
    match (
        words[SERVICE + channel * SERVICES * SERVICE_WORDS],
        words[at],
    ) {
        (2, 0) => at + 1..end,
        (2, _) => end..end,
        _ => at..end,
    }
}

/// The words of a service that say nothing at its stage: an idle one's handle
/// and minor version, an offered one's minor version.
fn free_of_service(words: &Words, stage: usize) -> Range<usize> {
    let end = stage + SERVICE_WORDS;
    match words[stage] {
        0 => stage + 1..end,
        1 => stage + 2..end,
        _ => end..end,
    }
}

/// The words after the last of a device's name.
fn free_of_device(words: &Words, device: usize) -> Range<usize> {
    let at = DEVICE + device * DEVICE_WORDS;
    let bytes = words[at + NAME_BYTES].min(MAX_NAME as u64) as usize;
    at + NAME + bytes.div_ceil(8)..at + DEVICE_WORDS
}

/// The words after the last of an id's bytes.
fn free_of_id(words: &Words, id: usize) -> Range<usize> {
    let at = ID + id * ID_WORDS;
    let bytes = words[at + ID_BYTES].min(MAX_ID as u64) as usize;
    at + ID_NAME + bytes.div_ceil(8)..at + ID_WORDS
}

/// Handle and minor version of a place on a channel where no id is registered.
fn free_of_peer(words: &Words, channel: usize, place: usize) -> [Range<usize>; 2] {
    let marks = PEER + channel * PEER_WORDS;
    let free = usize::from(words[marks] >> place & 1 == 0);
    [marks + HANDLE + place, marks + MINOR + place].map(|word| word..word + free)
}

/// The words that 01 and 02 give no meaning in this state: those of services,
/// blocks, devices and ids past the count, those past a device's name and an
/// id's bytes, handles and minor versions of the peer where nothing is
/// registered, the delay without a shutdown's order, a removal's words while none is outstanding, its
/// records past the count, its results from the position on, and those of
/// request numbers.
fn free(words: &Words) -> Vec<Range<usize>> {
    let taken = |word: usize, most: usize| words[word].min(most as u64) as usize;
    let stages = (SERVICE..BLOCK_COUNT).step_by(SERVICE_WORDS);
    let mut ranges: Vec<_> = stages.map(|stage| free_of_service(words, stage)).collect();
    ranges.push(BLOCK + taken(BLOCK_COUNT, MAX_BLOCKS) * BLOCK_WORDS..LAST);
    ranges.extend((0..CHANNELS).map(|channel| free_of_numbers(words, channel)));
    let devices = taken(DEVICE_COUNT, MAX_DEVICES);
    ranges.extend((0..devices).map(|device| free_of_device(words, device)));
    ranges.push(DEVICE + devices * DEVICE_WORDS..PERMISSION);
    ranges.push(if words[ORDER] == 1 { ID_COUNT } else { DELAY }..ID_COUNT);
    let ids = taken(ID_COUNT, MAX_IDS);
    ranges.extend((0..ids).map(|id| free_of_id(words, id)));
    ranges.push(ID + ids * ID_WORDS..PEER);
    let places = (0..CHANNELS).flat_map(|channel| (0..MAX_IDS).map(move |at| (channel, at)));
    ranges.extend(places.flat_map(|(channel, place)| free_of_peer(words, channel, place)));
    if words[OUTSTANDING] == 0 {
        ranges.push(CANCELLED..NUMBERED);
        return ranges;
    }
    let count = taken(COUNT, MAX_RECORDS);
    ranges.push(ADDRESS + count..SIZE);
    ranges.push(SIZE + count..RESULT);
    ranges.push(RESULT + taken(POSITION, MAX_RECORDS)..NUMBERED);
    ranges
}

/// Gives each word without a meaning a value, and the bits of marks past the last
/// place.
pub fn fill_free(words: &mut Words, mut value: impl FnMut() -> u64) {
    for range in free(words) {
        words[range].fill_with(&mut value);
    }
    for marks in words[PEER..].iter_mut().step_by(PEER_WORDS) {
        *marks = *marks & !PAST_PLACES | value() & PAST_PLACES;
    }
}

/// The words with those without a meaning set to 0.
pub fn meant(mut words: Words) -> Words {
    fill_free(&mut words, || 0);
    words
}
