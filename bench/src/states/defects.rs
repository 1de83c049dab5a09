//! What breaks the rules of devices, orders, ids, registrations, the top bit of
//! handles, and those of 64 blocks and records, for the counts.

use independent::block::MAX_BLOCKS;
use independent::device::{MAX_DEVICES, MAX_NAME};
use independent::peer::{MAX_ID, MAX_IDS, MAX_PEERS};
use independent::removal::MAX_RECORDS;
use independent::state::TOP_BIT;
use independent::{Blocks, Device, Devices, Id, Ids, Peers, Removal, Service, State};

/// Every way to break the rules that the independent agent's form has.
pub const DEFECTS: [&str; 34] = [
    "33 devices",
    "more devices",
    "name of 0 bytes",
    "name of 257 bytes or more",
    "no zero at the end",
    "an inner zero",
    "a byte after the name",
    "an id and name twice",
    "a delay past 32 bits",
    "17 ids",
    "more ids",
    "an id of 0 bytes",
    "an id of 33 bytes or more",
    "an id without a zero at the end",
    "an id with an inner zero",
    "a byte after an id",
    "an id twice",
    "a registration on a closed channel",
    "nine registrations",
    "more registrations",
    "a registration of an id that is not listed",
    "a registration with the top bit",
    "a registration's handle twice",
    "a registration's minor above the list's",
    "a handle of ours without the top bit",
    "65 blocks",
    "more blocks",
    "a broken rule of a block up to 15",
    "a broken rule of a block from 16 on",
    "65 records",
    "more records",
    "a position past 17 to 64 records",
    "wrong pages at a record from 16 on",
    "last number 0",
];

/// What is wrong with a device alone.
fn of_device(device: &Device) -> Option<&'static str> {
    let length = device.length;
    if length == 0 || length > MAX_NAME {
        return Some(if length == 0 { DEFECTS[2] } else { DEFECTS[3] });
    }
    let (name, past) = device.name.split_at(length);
    let past = &past[..length.next_multiple_of(8) - length];
    match name.split_last() {
        Some((0, before)) if before.contains(&0) => Some(DEFECTS[5]),
        Some((0, _)) if past.iter().any(|byte| *byte != 0) => Some(DEFECTS[6]),
        Some((0, _)) => None,
        _ => Some(DEFECTS[4]),
    }
}

/// The first thing that is wrong with devices, or else with orders, ids,
/// registrations, or handles.
pub fn defect(state: &State) -> Option<&'static str> {
    let past = !state.orders.keep_rules();
    let found = of_devices(&state.devices).or(past.then_some(DEFECTS[8]));
    let found = found.or_else(|| of_ids(&state.ids));
    found.or_else(|| {
        let mut channels = state.channels.iter().zip(&state.peers);
        let peers =
            channels.find_map(|(channel, peers)| of_peers(peers, &state.ids, channel.ready));
        let peers = peers.or_else(|| bare(state).then_some(DEFECTS[24]));
        let peers = peers.or_else(|| of_blocks(&state.blocks));
        peers.or_else(|| of_removal_or_numbers(state))
    })
}

fn of_blocks(blocks: &Blocks) -> Option<&'static str> {
    match blocks.count {
        ..=MAX_BLOCKS => {}
        65 => return Some(DEFECTS[25]),
        _ => return Some(DEFECTS[26]),
    }
    let up_to = |count: &usize| Blocks {
        count: *count,
        list: blocks.list,
    };
    let mut counts = 1..=blocks.count;
    let first = counts.find(|count| !up_to(count).keep_rules())?;
    Some(DEFECTS[if first <= 16 { 27 } else { 28 }])
}

/// What is wrong with the removal's records, or that there is no entry, if
/// nothing else is.
fn of_removal_or_numbers(state: &State) -> Option<&'static str> {
    let without = State {
        removal: None,
        ..*state
    };
    let numbered = State {
        last: state.last.max(1),
        ..*state
    };
    if state.last == 0 && numbered.is_sound() {
        return Some(DEFECTS[33]);
    }
    let removal = state.removal.filter(|_| without.is_sound())?;
    let emptied = Removal {
        collected: 0,
        ..removal
    };
    let emptied = State {
        removal: Some(emptied),
        ..*state
    };
    let tests = [
        (removal.count == MAX_RECORDS + 1, 29),
        (removal.count > MAX_RECORDS + 1, 30),
        (removal.count > 16 && removal.position > removal.count, 31),
        (
            removal.position >= 16 && !state.is_sound() && emptied.is_sound(),
            32,
        ),
    ];
    let found = tests.iter().find(|(found, _)| *found);
    found.map(|(_, defect)| DEFECTS[*defect])
}

/// Whether a handle of a live service or of the removal lacks the top bit.
fn bare(state: &State) -> bool {
    let services = state.channels.iter().flat_map(|channel| &channel.services);
    let handles = services.filter_map(Service::handle);
    let mut handles = handles.chain(state.removal.map(|removal| removal.handle));
    handles.any(|handle| handle & TOP_BIT == 0)
}

/// What is wrong with an id alone.
fn of_id(id: &Id) -> Option<&'static str> {
    let length = id.length;
    if length == 0 || length > MAX_ID {
        return Some(if length == 0 {
            DEFECTS[11]
        } else {
            DEFECTS[12]
        });
    }
    let bytes: Vec<u8> = id
        .words
        .iter()
        .flat_map(|word| word.to_be_bytes())
        .collect();
    let (bytes, past) = bytes.split_at(length);
    let past = &past[..length.next_multiple_of(8) - length];
    match bytes.split_last() {
        Some((0, before)) if before.contains(&0) => Some(DEFECTS[14]),
        Some((0, _)) if past.iter().any(|byte| *byte != 0) => Some(DEFECTS[15]),
        Some((0, _)) => None,
        _ => Some(DEFECTS[13]),
    }
}

fn of_ids(ids: &Ids) -> Option<&'static str> {
    match ids.count {
        ..=MAX_IDS => {}
        17 => return Some(DEFECTS[9]),
        _ => return Some(DEFECTS[10]),
    }
    let alone = ids.listed().iter().find_map(of_id);
    alone.or_else(|| {
        let bytes: Vec<Vec<u8>> = ids.listed().iter().map(Id::bytes).collect();
        let twice = (0..bytes.len()).any(|at| bytes[..at].contains(&bytes[at]));
        twice.then_some(DEFECTS[16])
    })
}

/// What is wrong with the registrations of a channel.
fn of_peers(peers: &Peers, ids: &Ids, ready: bool) -> Option<&'static str> {
    let places: Vec<usize> = peers.places().collect();
    let handles: Vec<u64> = places.iter().map(|place| peers.handles[*place]).collect();
    let twice = (0..handles.len()).any(|at| handles[..at].contains(&handles[at]));
    let above = |place: &usize| peers.minors[*place] > ids.list[*place].minor;
    let tests = [
        (!ready && !places.is_empty(), 17),
        (peers.count() == MAX_PEERS + 1, 18),
        (peers.count() > MAX_PEERS + 1, 19),
        (places.iter().any(|place| *place >= ids.count), 20),
        (handles.iter().any(|handle| handle & TOP_BIT != 0), 21),
        (twice, 22),
        (places.iter().any(above), 23),
    ];
    let found = tests.iter().find(|(found, _)| *found);
    found.map(|(_, defect)| DEFECTS[*defect])
}

fn of_devices(devices: &Devices) -> Option<&'static str> {
    match devices.count {
        ..=MAX_DEVICES => {}
        33 => return Some(DEFECTS[0]),
        _ => return Some(DEFECTS[1]),
    }
    let listed = devices.listed();
    let named = |device: &Device| (device.id, device.name[..device.length].to_vec());
    let twice = |at: usize| {
        let mut before = listed[..at].iter();
        before.any(|other| named(other) == named(&listed[at]))
    };
    let alone = listed.iter().find_map(of_device);
    alone.or_else(|| (0..listed.len()).any(twice).then_some(DEFECTS[7]))
}
