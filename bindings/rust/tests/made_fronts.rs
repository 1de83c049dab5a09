//! The boundaries of document 02's ticket 9 that no list of calls reaches: on fronts made by hand, each way in which a
//! front is not sound, beside the nearest sound one.

mod common;

use arkelutz::raw::{self, Front, Words, FRONT_BYTES, FRONT_WORDS};
use arkelutz::raw::{JOURNAL_WORDS, OUTPUT_BYTES, STATE_WORDS};
use common::layout::{value, word};
use common::lines::{answer, digits, Lines};

/// A case's name, and of channel 2 the bytes kept, the mark of dropping, and the payload_len of the message begun.
type Row = (&'static str, &'static str, u64, &'static str);

#[rustfmt::skip]
const FRONTS: &[Row] = &[
    ("# nothing kept", "0", 0, "0"),
    ("# 7 bytes kept, then the eighth: a payload_len above 4096", "7", 0, "MOST_PAYLOAD + 256"),
    ("# 8 bytes kept, payload_len 1", "8", 0, "1"),
    ("# 8 bytes kept, payload_len 2", "8", 0, "2"),
    ("# 8 bytes kept, payload_len 0: a whole message", "8", 0, "0"),
    ("# 9 bytes kept, payload_len 1: a whole message", "9", 0, "1"),
    ("# 10 bytes kept, payload_len 1: more than a message", "10", 0, "1"),
    ("# 8 bytes kept, payload_len 4096", "8", 0, "MOST_PAYLOAD"),
    ("# 8 bytes kept, payload_len 4097", "8", 0, "MOST_PAYLOAD + 1"),
    ("# 4103 bytes kept, payload_len 4096", "MOST_KEPT", 0, "MOST_PAYLOAD"),
    ("# 4104 bytes kept, payload_len 4096", "MOST_MESSAGE", 0, "MOST_PAYLOAD"),
    ("# 4104 bytes kept, payload_len 4097", "MOST_MESSAGE", 0, "MOST_PAYLOAD + 1"),
    ("# dropping", "0", 1, "0"),
    ("# dropping, and a byte kept", "1", 1, "0"),
    ("# a mark of 2", "0", 2, "0"),
];

/// What setup makes of one block.
fn new_state() -> Words {
    let mut state = [0; STATE_WORDS];
    let blocks = [0x1000_0000, 4, 0, 0, 1];
    let refusal = raw::setup(&mut state, &blocks, &[], &[], &mut [0; JOURNAL_WORDS]);
    assert_eq!(refusal, 0);
    state
}

/// A front of which channel 2 has these words, and in its room the beginning of a message of type 0x63, which no
/// message has, with this payload_len.
fn front_of(kept: &str, dropping: u64, payload_len: &str) -> Front {
    let mut front = Front {
        words: [0; FRONT_WORDS],
        bytes: [0x41; FRONT_BYTES],
    };
    front.words[word("KEPT")] = value(kept);
    front.words[word("DROPPING")] = dropping;
    let header = 0x63 << 32 | value(payload_len);
    front.bytes[word("ROOM")..][..8].copy_from_slice(&header.to_be_bytes());
    front
}

/// A piece of one byte on a channel, with the journal and the output that are lent.
fn piece_lent(
    lines: &mut Lines,
    before: &Front,
    state: &Words,
    channel: u64,
    (journal, out): (&mut [u64], &mut [u8]),
) {
    let (mut front, mut state) = (before.clone(), *state);
    let given = raw::piece(&mut front, &mut state, channel, &[0], journal, out);
    let message = if given.given != 0 { " message" } else { "" };
    let taken = format!(" {}{message}{}", given.taken, digits(&out[..given.length]));
    lines.put(&answer("piece", given.refusal, &taken));
    let is_changed = given.refusal != 0 && front != *before;
    lines.put_if(is_changed, "the front has changed");
}

fn piece(lines: &mut Lines, front: &Front, state: &Words, channel: u64) {
    let lent: (&mut [u64], &mut [u8]) = (&mut [0; JOURNAL_WORDS], &mut [0; OUTPUT_BYTES]);
    piece_lent(lines, front, state, channel, lent);
}

fn reopen(lines: &mut Lines, before: &Front, state: &Words, channel: u64) {
    let mut front = before.clone();
    let refusal = raw::reopen(&mut front, state, channel);
    lines.put(&answer("reopen", refusal, ""));
    let is_changed = refusal != 0 && front != *before;
    lines.put_if(is_changed, "the front has changed");
}

/// A piece on each of two channels, and a reopening of each.
fn each_call(lines: &mut Lines, front: &Front, state: &Words, channels: [u64; 2]) {
    for channel in channels {
        piece(lines, front, state, channel);
    }
    for channel in channels {
        reopen(lines, front, state, channel);
    }
}

/// 8 is tested before 1, 2 and 3.
fn unsound_front(lines: &mut Lines) {
    let (front, state) = (front_of("8", 0, "0"), new_state());
    lines.put("# an unsound front, 127 words of journal, 2591 bytes of output, channel 4");
    let lent: (&mut [u64], &mut [u8]) = (&mut [0; JOURNAL_WORDS - 1], &mut [0; OUTPUT_BYTES - 1]);
    piece_lent(lines, &front, &state, 4, lent);
    reopen(lines, &front, &state, 4);
}

fn unsound_state(lines: &mut Lines) {
    let (front, mut state) = (front_of("0", 0, "0"), new_state());
    state[word("HELD_WORD")] = 2;
    lines.put("# a sound front and an unsound state, channel 2 and channel 4");
    each_call(lines, &front, &state, [2, 4]);
}

/// With 64 entries held a piece that gives a message is refused by 4, one that gives none is taken, and so is a
/// reopening.
fn held(lines: &mut Lines) {
    let mut state = new_state();
    state[word("LAST_WORD")] = value("MOST_HELD");
    state[word("HELD_WORD")] = value("MOST_HELD");
    lines.put(
        "# 64 entries held: the last byte of a message, a byte within one, one that is dropped, a reopening",
    );
    let unfinished = front_of("8", 0, "1");
    piece(lines, &unfinished, &state, 2);
    piece(lines, &front_of("7", 0, "256"), &state, 2);
    piece(lines, &front_of("0", 1, "1"), &state, 2);
    reopen(lines, &unfinished, &state, 2);
}

#[test]
fn made_fronts_are_answered_as_expected() {
    let lines = &mut Lines::default();
    for (name, kept, dropping, payload_len) in FRONTS {
        lines.put(name);
        let front = front_of(kept, *dropping, payload_len);
        each_call(lines, &front, &new_state(), [2, 0]);
    }
    unsound_front(lines);
    unsound_state(lines);
    held(lines);
    lines.compare(include_str!("made_fronts.answers"));
}

#[test]
fn lengths_are_those_of_the_map() {
    assert_eq!(FRONT_WORDS, word("FRONT_WORDS"));
    assert_eq!(FRONT_BYTES, word("FRONT_BYTES"));
}
