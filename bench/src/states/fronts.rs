//! Fronts before a piece or a reopening, in the proved agent's form: sound ones,
//! and ones with one thing wrong.

use super::message;
use crate::proved;
use independent::front::{Stage, MAX_MESSAGE};
use independent::generate::random::Random;
use independent::state::CHANNELS;
use independent::wire::{get32, HEADER, MAX_PAYLOAD};
use independent::{Front, State};

const CHANNEL_WORDS: usize = 2;
/// The most bytes of an unfinished message.
pub const MOST_KEPT: usize = MAX_MESSAGE - 1;

/// What makes a front unsound.
pub const UNSOUND: [&str; 5] = [
    "more than 4,103 bytes kept",
    "a mark past 1",
    "bytes kept while they are dropped",
    "a payload_len above 4,096 kept",
    "a whole message kept",
];

/// A channel's words: how many bytes are kept, and the mark of dropping.
pub fn words(front: &proved::Front, channel: usize) -> [u64; CHANNEL_WORDS] {
    let at = channel * CHANNEL_WORDS;
    [front.words[at], front.words[at + 1]]
}

fn set_words(front: &mut proved::Front, channel: usize, words: [u64; CHANNEL_WORDS]) {
    let at = channel * CHANNEL_WORDS;
    front.words[at..at + CHANNEL_WORDS].copy_from_slice(&words);
}

/// A channel's room, of which the first bytes are those kept.
fn room(front: &proved::Front, channel: usize) -> &[u8] {
    &front.bytes[channel * MAX_MESSAGE..][..MAX_MESSAGE]
}

fn room_mut(front: &mut proved::Front, channel: usize) -> &mut [u8] {
    &mut front.bytes[channel * MAX_MESSAGE..][..MAX_MESSAGE]
}

/// The place in UNSOUND of what is wrong with a channel's front.
fn unsound_at(front: &proved::Front, channel: usize) -> Option<usize> {
    let [kept, mark] = words(front, channel);
    let end = HEADER + get32(room(front, channel), 4) as usize;
    let header = kept >= HEADER as u64;
    let tests = [
        kept > MOST_KEPT as u64,
        mark > 1,
        mark == 1 && kept > 0,
        header && end > MAX_MESSAGE,
        header && kept >= end as u64,
    ];
    tests.iter().position(|found| *found)
}

/// The first channel whose front is not sound, and what is wrong with it.
pub fn unsound(front: &proved::Front) -> Option<(usize, usize)> {
    (0..CHANNELS).find_map(|channel| Some((channel, unsound_at(front, channel)?)))
}

/// The independent agent's form, which has no mark past 1 and no bytes that are
/// kept while they are dropped.
pub fn form_of(front: &proved::Front) -> Option<Front> {
    let mut form = Front::default();
    for (channel, stream) in form.streams.iter_mut().enumerate() {
        stream.stage = match words(front, channel) {
            [kept, 0] => Stage::Keeping(kept as usize),
            [0, 1] => Stage::Dropping,
            _ => return None,
        };
        stream.bytes.copy_from_slice(room(front, channel));
    }
    Some(form)
}

/// How many bytes of a message a sound front may keep: some of its header, more
/// than that, all but one, or none.
fn kept(random: &mut Random, message: &[u8]) -> usize {
    let over = get32(message, 4) as usize > MAX_PAYLOAD;
    let most = if over { HEADER } else { message.len() } - 1;
    let more = random.between(HEADER.min(most) as u64, most as u64);
    let few = random.between(1, HEADER as u64 - 1);
    random.pick(&[0, 0, few, few, few, more, more, most as u64, most as u64]) as usize
}

/// Gives a channel a sound front; gives how many bytes of the message it keeps.
fn begin(random: &mut Random, front: &mut proved::Front, channel: usize, message: &[u8]) -> usize {
    if random.once_in(8) {
        set_words(front, channel, [0, 1]);
        return 0;
    }
    let kept = kept(random, message);
    room_mut(front, channel)[..kept].copy_from_slice(&message[..kept]);
    set_words(front, channel, [kept as u64, 0]);
    kept
}

/// Gives every channel a sound front; the bytes that are not kept are anything.
fn begin_all(random: &mut Random, front: &mut proved::Front, state: &State) {
    for bytes in front.bytes.chunks_exact_mut(8) {
        bytes.copy_from_slice(&random.next().to_ne_bytes());
    }
    for channel in 0..CHANNELS {
        if !random.once_in(3) {
            let message = message::of_stream(random, state, channel as u64);
            begin(random, front, channel, &message);
        }
    }
}

/// Makes a channel's front unsound in one way; half of the time that of the call.
fn spoil(random: &mut Random, front: &mut proved::Front, called: u64) {
    let other = random.below(CHANNELS as u64);
    let at = match usize::try_from(called) {
        Ok(called @ 0..CHANNELS) if random.once_in(2) => called,
        _ => other as usize,
    };
    let any = random.between(HEADER as u64, MOST_KEPT as u64);
    let whole = random.between(HEADER as u64, any);
    let (words, payload_len) = match random.below(5) {
        0 => {
            let kept = random.pick(&[4_104, 4_104, 4_105, 1 << 32, 1 << 32 | 8, u64::MAX]);
            ([kept, 0], random.pick(&[4_096, 4_096, 4_095, 0]))
        }
        1 => {
            let mark = random.pick(&[2, 3, 1 << 32, 1 << 32 | 1, u64::MAX]);
            ([random.pick(&[0, 0, 5, any]), mark], 4_096)
        }
        2 => ([random.pick(&[1, 7, 8, any, 4_103, 1 << 32]), 1], 4_096),
        3 => {
            let kept = random.pick(&[8, any, any, 4_103]);
            let over = random.pick(&[4_097, 4_097, 4_098, 1 << 16, u32::MAX]);
            ([kept, 0], over)
        }
        _ => {
            let payload = random.pick(&[whole, any, any]) - HEADER as u64;
            ([any, 0], payload as u32)
        }
    };
    set_words(front, at, words);
    room_mut(front, at)[4..HEADER].copy_from_slice(&payload_len.to_be_bytes());
}

/// Makes the front that a reopening finds; one in four is not sound.
pub fn before_reopen(random: &mut Random, front: &mut proved::Front, state: &State, channel: u64) {
    begin_all(random, front, state);
    if random.once_in(4) {
        spoil(random, front, channel);
    }
}

/// Makes the front that a piece finds, one in four not sound, and gives the
/// piece: of the rest of the message whose beginning is kept and, in some, of
/// messages behind it.
pub fn piece(
    random: &mut Random,
    front: &mut proved::Front,
    state: &State,
    channel: u64,
) -> Vec<u8> {
    begin_all(random, front, state);
    let mut stream = message::of_stream(random, state, channel);
    if channel < CHANNELS as u64 {
        let kept = begin(random, front, channel as usize, &stream);
        stream.drain(..kept);
    }
    if random.once_in(4) {
        spoil(random, front, channel);
    }
    let end = stream.len() as u64;
    let inside = random.up_to(end - 1);
    let header = random.up_to(end.min(HEADER as u64));
    let length = random.pick(&[0, 1, inside, inside, header, end - 1, end, end, end]);
    if random.once_in(3) {
        return behind(random, state, channel, stream);
    }
    stream.truncate(length as usize);
    stream
}

/// The rest of a message, with others behind it, of which the last may be cut.
fn behind(random: &mut Random, state: &State, channel: u64, mut stream: Vec<u8>) -> Vec<u8> {
    for _ in 0..random.between(1, 3) {
        stream.extend(message::of_stream(random, state, channel));
    }
    let cut = random.up_to(HEADER as u64) as usize;
    let cut = random.pick(&[0, cut]);
    stream.truncate(stream.len() - cut);
    stream
}
