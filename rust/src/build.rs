//! Messages as a peer sends them, for the generator and the tests.

use crate::block::Pair;
use crate::state::TOP_BIT;
use crate::wire;

/// Our handle of an offer whose entry has this number.
pub const fn ours(number: u64) -> u64 {
    TOP_BIT | number
}

/// A DS message with the right payload_len.
pub fn ds(ds_type: u32, payload: &[u8]) -> Vec<u8> {
    with_length(ds_type, payload.len() as u32, payload)
}

/// A DS message with any payload_len.
pub fn with_length(ds_type: u32, payload_len: u32, payload: &[u8]) -> Vec<u8> {
    [&ds_type.to_be_bytes(), &payload_len.to_be_bytes(), payload].concat()
}

pub fn init_req(major: u16, minor: u16) -> Vec<u8> {
    ds(
        wire::INIT_REQ,
        &[major.to_be_bytes(), minor.to_be_bytes()].concat(),
    )
}

pub fn reg_req(handle: u64, major: u16, minor: u16, id: &[u8]) -> Vec<u8> {
    let version = [major.to_be_bytes(), minor.to_be_bytes()].concat();
    ds(
        wire::REG_REQ,
        &[&handle.to_be_bytes(), version.as_slice(), id].concat(),
    )
}

pub fn reg_ack(handle: u64, minor: u16) -> Vec<u8> {
    let minor = minor.to_be_bytes();
    ds(
        wire::REG_ACK,
        &[handle.to_be_bytes().as_slice(), &minor].concat(),
    )
}

pub fn reg_nack(handle: u64, result: u64, major: u16) -> Vec<u8> {
    let words = [handle.to_be_bytes(), result.to_be_bytes()].concat();
    ds(
        wire::REG_NACK,
        &[words.as_slice(), &major.to_be_bytes()].concat(),
    )
}

/// UNREG, UNREG_ACK or UNREG_NACK.
pub fn of_handle(ds_type: u32, handle: u64) -> Vec<u8> {
    ds(ds_type, &handle.to_be_bytes())
}

pub fn nack(handle: u64, result: u64) -> Vec<u8> {
    ds(
        wire::NACK,
        &[handle.to_be_bytes(), result.to_be_bytes()].concat(),
    )
}

pub fn data(handle: u64, data: &[u8]) -> Vec<u8> {
    ds(wire::DATA, &[&handle.to_be_bytes(), data].concat())
}

/// A memory message, not yet in DATA.
pub fn memory(memory_type: u32, argument: u32, request: u64, pairs: &[Pair]) -> Vec<u8> {
    let mut bytes = [memory_type.to_be_bytes(), argument.to_be_bytes()].concat();
    bytes.extend_from_slice(&request.to_be_bytes());
    for pair in pairs {
        bytes.extend_from_slice(&pair.addr.to_be_bytes());
        bytes.extend_from_slice(&pair.size.to_be_bytes());
    }
    bytes
}

/// A device request, not yet in DATA.
pub fn device(request: u64, id: u64, asked: u32, name: &[u8]) -> Vec<u8> {
    let mut bytes = [request.to_be_bytes(), id.to_be_bytes()].concat();
    bytes.extend_from_slice(&asked.to_be_bytes());
    bytes.extend_from_slice(name);
    bytes
}

/// A shutdown request, not yet in DATA.
pub fn shutdown(request: u64, delay: u32) -> Vec<u8> {
    [request.to_be_bytes().as_slice(), &delay.to_be_bytes()].concat()
}

/// A panic request, not yet in DATA.
pub fn panic(request: u64) -> Vec<u8> {
    request.to_be_bytes().to_vec()
}

/// A request with the argument that its pairs need.
pub fn request(memory_type: u32, request: u64, pairs: &[Pair]) -> Vec<u8> {
    memory(memory_type, pairs.len() as u32, request, pairs)
}
