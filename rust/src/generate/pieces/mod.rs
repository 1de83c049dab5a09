//! Streams in pieces: their messages, where they are cut, and bad lines.

mod actions;

use super::messages::{self, Live};
use super::random::Random;
use crate::lines::MAX_LINE;
use crate::state::{Service, State};
use crate::wire::{get32, HEADER, MAX_PAYLOAD};
use crate::{build, wire};

/// A header whose payload_len is above 4,096, with some bytes after it.
fn over(random: &mut Random) -> Vec<u8> {
    let any = random.next() as u32 | 0x2000;
    let payload = random.pick(&[4_097, 4_097, 4_098, 8_192, 1 << 31, u32::MAX, any]);
    let ds_type = random.pick(&[wire::INIT_REQ, wire::REG_REQ, wire::DATA, wire::DATA, any]);
    let more = random.pick(&[0, 0, 1, 4, 30]);
    build::with_length(ds_type, payload, &random.bytes(more))
}

/// A message with a payload about the longest.
fn longest(random: &mut Random, upsets: bool) -> Vec<u8> {
    let payload = random.pick(&[MAX_PAYLOAD, MAX_PAYLOAD, MAX_PAYLOAD - 1]);
    let payload = vec![random.next() as u8; payload];
    match upsets && random.once_in(3) {
        true => build::ds(wire::REG_REQ, &payload),
        false => build::ds(wire::DATA, &payload),
    }
}

/// A short message of any type, or one that undoes nothing.
fn short(random: &mut Random, state: &State, channel: u64, upsets: bool) -> Vec<u8> {
    let handle = messages::handle(random, state, channel);
    match random.below(7) {
        0 if upsets => messages::init_req(random),
        1 | 2 if upsets => messages::registration(random, handle),
        3 if upsets => build::of_handle(wire::UNREG, handle),
        4 | 5 => messages::noted(random, handle),
        _ => {
            let more = random.below(16);
            build::data(handle, &random.bytes(more))
        }
    }
}

/// What makes a channel ready or registers what is offered there, or a memory
/// request; else a short message.
fn useful(random: &mut Random, state: &State, channel: u64, upsets: bool) -> Vec<u8> {
    let place = &state.channels[channel as usize];
    if !place.ready {
        return build::init_req(1, 0);
    }
    let offered = |service: &Service| match service {
        Service::Offered { handle } => Some(*handle),
        _ => None,
    };
    let of_memory = |live: &Live| live.channel == channel && live.service == 0 && live.registered;
    match random.below(4) {
        0 | 1 => {
            if let Some(handle) = place.services.iter().find_map(offered) {
                return build::reg_ack(handle, 0);
            }
        }
        2 => {
            if let Some(live) = messages::pick_live(random, state, of_memory) {
                let request = messages::good_memory(random, state, channel);
                return build::data(live.handle, &request);
            }
        }
        _ => {}
    }
    short(random, state, channel, upsets)
}

/// A message of a stream; without `upsets` one that undoes nothing.
fn message(random: &mut Random, state: &State, channel: u64, upsets: bool) -> Vec<u8> {
    match random.weighted(&[40, 25, 20, 6, 3, 6]) {
        1 => short(random, state, channel, upsets),
        2 if upsets => messages::any(random, state, channel),
        // A header alone, which is badly formed.
        3 if upsets => build::ds(random.pick(&[0, 3, 9, 0x77]), &[]),
        4 => longest(random, upsets),
        5 if upsets => over(random),
        _ => useful(random, state, channel, upsets),
    }
}

/// How many bytes of a stream end the message whose beginning is kept, or its
/// header, as far as the stream goes.
fn to_end(kept: &[u8], stream: &[u8]) -> usize {
    let missing = HEADER.saturating_sub(kept.len()).min(stream.len());
    let header = [&kept[..kept.len().min(HEADER)], &stream[..missing]].concat();
    let length = match header.len() {
        HEADER => match get32(&header, 4) as usize {
            payload @ ..=MAX_PAYLOAD => HEADER + payload,
            _ => HEADER,
        },
        _ => HEADER,
    };
    length.saturating_sub(kept.len()).min(stream.len())
}

/// A line for the front that is bad.
fn bad_line(random: &mut Random) -> Vec<u8> {
    let name = random.pick(&["piece", "piece", "reopen"]);
    let high = random.pick(&["18446744073709551616", "0x10000000000000000"]);
    let line = match random.below(8) {
        0 => name.to_string(),
        1 => format!("{name} 1 00 00"),
        2 => format!("{name} {high}"),
        3 => format!("{name} {}", random.pick(&["x", "", "-1", "0x", "1x"])),
        4 => format!("piece 1 {}", random.pick(&["0", "000", "abc"])),
        5 => format!("piece 1 {}", random.pick(&["0g", "0x00", "", "00\r"])),
        6 => format!("piece 1 {}", "00".repeat(MAX_LINE / 2)),
        _ => format!("reopen 1 {}", random.pick(&["1", ""])),
    };
    line.into_bytes()
}
