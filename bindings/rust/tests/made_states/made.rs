//! States made by hand.

use crate::common::layout::{value, word};
use arkelutz::raw::{self, Words, JOURNAL_WORDS, STATE_WORDS};

/// What every word of the journal holds before a call.
pub const WORD: u64 = 7;

/// Changes words: `PLACE = VALUE, PLACE = VALUE`.
pub fn change(words: &mut [u64], changes: &str) {
    for change in changes.split(", ") {
        let (place, new) = change.split_once(" = ").expect(change);
        words[word(place)] = value(new);
    }
}

/// Two devices with id 1, `disk` configured and `net0` busy.
pub fn two_devices() -> Vec<u64> {
    let mut words = vec![0; word("2 * DEVICE_WORDS")];
    change(
        &mut words,
        "0 = 1, DEVICE_CONFIGURED_PLACE = 1, NAME_BYTES_PLACE = 5, NAME_PLACE = DISK",
    );
    let net0 = "0 = 1, BUSY_PLACE = 1, NAME_BYTES_PLACE = 5, NAME_PLACE = 0x6e65743000000000";
    change(&mut words[word("DEVICE_WORDS")..], net0);
    words
}

/// Two ids: `sp-log` 1.2 and `sp-fan` 2.0.
pub fn two_ids() -> Vec<u64> {
    let mut words = vec![0; word("2 * ID_WORDS")];
    let sp_log = "0 = 1, ID_MINOR_PLACE = 2, ID_BYTES_PLACE = 7, ID_PLACE = SP_LOG";
    change(&mut words, sp_log);
    let sp_fan = "0 = 2, ID_BYTES_PLACE = 7, ID_PLACE = 0x73702d66616e0000";
    change(&mut words[word("ID_WORDS")..], sp_fan);
    words
}

/// What setup makes of two blocks, the second unconfigured, and of those devices and ids; then with channel 2 ready,
/// the first id registered there by the peer under its handle 5, with minor version 2, and the mark no longer held.
pub fn ready_state() -> Words {
    let blocks = [0x1000_0000, 4, 0, 0, 1, 0x2000_0000, 2, 0, 0, 0];
    let mut state = [0; STATE_WORDS];
    let mut journal = [WORD; JOURNAL_WORDS];
    let refusal = raw::setup(
        &mut state,
        &blocks,
        &two_devices(),
        &two_ids(),
        &mut journal,
    );
    assert_eq!(refusal, 0);
    let ready = "2 = 1, HELD_WORD = 0, PEER = 1, PEER_HANDLE = 5, PEER_MINOR = 2";
    change(&mut state, ready);
    state
}

/// That state with service 0 registered on channel 2 under handle 2, service 1 under 3, service 2 offered under 4; nine
/// entries numbered; a removal of the first block and then the second, under handle 2, just begun.
pub fn sound_state() -> Words {
    let mut state = ready_state();
    let services = "STAGE = REGISTERED, HANDLE = TOP_BIT + 2, \
        STAGE + SERVICE_WORDS = REGISTERED, HANDLE + SERVICE_WORDS = TOP_BIT + 3, \
        STAGE + 2 * SERVICE_WORDS = OFFERED, HANDLE + 2 * SERVICE_WORDS = TOP_BIT + 4";
    change(&mut state, services);
    let removal = "LAST_WORD = 9, OUTSTANDING_WORD = 1, \
        REMOVAL_CHANNEL_WORD = 2, REMOVAL_HANDLE_WORD = TOP_BIT + 2, COUNT_WORD = 2, \
        FIRST_ADDRESS_WORD = 0x10000000, FIRST_ADDRESS_WORD + 1 = 0x20000000, \
        FIRST_SIZE_WORD = 0x8000, FIRST_SIZE_WORD + 1 = 0x4000";
    change(&mut state, removal);
    state
}

/// A state of 64 blocks of a page each, from 0 on.
pub fn sixty_four_blocks() -> Words {
    let mut state = [0; STATE_WORDS];
    for block in 0..word("MOST_BLOCKS") {
        let at = word("FIRST_BLOCK_WORD") + block * word("BLOCK_WORDS");
        state[at] = block as u64 * 8192;
        state[at + word("PAGES_PLACE")] = 1;
    }
    change(
        &mut state,
        "BLOCK_COUNT_WORD = MOST_BLOCKS, LAST_WORD = 524288",
    );
    state
}

/// The sound state with 16 ids of one byte and its zero, version 1.0, of which the peer has those marked registered on
/// channel 2, each under its index as the handle.
pub fn registered(marks: u64) -> Words {
    let mut state = sound_state();
    change(&mut state, "ID_COUNT_WORD = MOST_IDS");
    state[word("PEER")] = marks;
    for index in 0..word("MOST_IDS") {
        let id = &mut state[word("ID") + index * word("ID_WORDS")..];
        change(id, "0 = 1, ID_MINOR_PLACE = 0, ID_BYTES_PLACE = 2");
        id[word("ID_PLACE")] = (65 + index as u64) << 56;
        state[word("PEER_HANDLE") + index] = index as u64;
        state[word("PEER_MINOR") + index] = 0;
    }
    state
}
