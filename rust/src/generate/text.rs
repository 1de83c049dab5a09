//! A call as a line, with numbers and digits in the ways that are allowed.

use super::random::Random;
use crate::lines::{write_digits, Call};

/// Appends the line of a call, without LF.
pub fn write_call(call: &Call, random: &mut Random, text: &mut Vec<u8>) {
    text.extend_from_slice(call.name().as_bytes());
    match *call {
        Call::Setup(ref words) => {
            for word in words {
                write_number(*word, random, text);
            }
        }
        Call::Receive(channel, ref bytes)
        | Call::Show(channel, ref bytes)
        | Call::Piece(channel, ref bytes) => {
            write_number(channel, random, text);
            write_bytes(bytes, random, text);
        }
        Call::Offer(channel, service) | Call::Withdraw(channel, service) => {
            write_number(channel, random, text);
            write_number(service, random, text);
        }
        Call::Permit(service, permitted) => {
            write_number(service, random, text);
            write_number(permitted.into(), random, text);
        }
        Call::Close(number) | Call::Work(number) | Call::Reopen(number) => {
            write_number(number, random, text);
        }
        Call::Drain(size) | Call::Output(size) | Call::Journal(size) => {
            write_number(size as u64, random, text);
        }
        Call::State | Call::Take => {}
        Call::Device(ref device) => {
            for number in [device.id, device.configured, device.busy] {
                write_number(number, random, text);
            }
            write_bytes(&device.name, random, text);
        }
        Call::Peer(ref id) => {
            write_number(id.major, random, text);
            write_number(id.minor, random, text);
            write_bytes(&id.id, random, text);
        }
    }
}

/// A space and a number; a few in hexadecimal or with leading zeros.
pub fn write_number(number: u64, random: &mut Random, text: &mut Vec<u8>) {
    let zeros = random.between(1, 24) as usize;
    let written = match random.weighted(&[940, 25, 15, 10, 10]) {
        0 => format!(" {number}"),
        1 => format!(" {number:#x}"),
        2 => format!(" 0x{number:X}"),
        3 => format!(" {number:0zeros$}"),
        _ => format!(" 0x{number:0zeros$x}"),
    };
    text.extend_from_slice(written.as_bytes());
}

/// A space and the bytes, or nothing; a few in capitals or in both cases.
fn write_bytes(bytes: &[u8], random: &mut Random, text: &mut Vec<u8>) {
    if bytes.is_empty() {
        return;
    }
    text.push(b' ');
    let digits = match random.weighted(&[960, 20, 20]) {
        0 => b"0123456789abcdef",
        1 => b"0123456789ABCDEF",
        _ => b"0123456789aBcDeF",
    };
    write_digits(bytes, digits, text);
}
