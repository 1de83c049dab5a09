//! Domain Services messages: reading and writing, big-endian.

pub const INIT_REQ: u32 = 0x0;
pub const INIT_ACK: u32 = 0x1;
pub const INIT_NACK: u32 = 0x2;
pub const REG_REQ: u32 = 0x3;
pub const REG_ACK: u32 = 0x4;
pub const REG_NACK: u32 = 0x5;
pub const UNREG: u32 = 0x6;
pub const UNREG_ACK: u32 = 0x7;
pub const UNREG_NACK: u32 = 0x8;
pub const DATA: u32 = 0x9;
pub const NACK: u32 = 0xa;

/// REG_NACK's result: the major version is not supported.
pub const REG_VER_NACK: u64 = 1;
/// REG_NACK's result: a duplicate registration.
pub const REG_DUP: u64 = 2;
/// NACK's result: the handle is not valid.
pub const INV_HDL: u64 = 3;
/// Type and payload_len.
pub const HEADER: usize = 8;
/// The longest payload.
pub const MAX_PAYLOAD: usize = 4_096;
/// Where a DATA message's own data begin: after header and handle.
pub const DATA_START: usize = 16;

/// The payload of REG_REQ; the id has its only zero at its end.
#[derive(Clone, Copy, Debug, PartialEq, Eq)]
pub struct RegReq<'a> {
    pub handle: u64,
    pub major: u16,
    pub minor: u16,
    pub id: &'a [u8],
}

/// A well-formed message; only what the agent uses of it.
#[derive(Clone, Copy, Debug, PartialEq, Eq)]
pub enum Message<'a> {
    InitReq { major: u16 },
    RegReq(RegReq<'a>),
    RegAck { handle: u64, minor: u16 },
    RegNack { handle: u64 },
    Unreg { handle: u64 },
    UnregAck,
    UnregNack,
    Data { handle: u64, data: &'a [u8] },
    Nack,
}

impl Message<'_> {
    /// The message's type on the wire.
    pub fn ds_type(&self) -> u32 {
        match self {
            Message::InitReq { .. } => INIT_REQ,
            Message::RegReq(_) => REG_REQ,
            Message::RegAck { .. } => REG_ACK,
            Message::RegNack { .. } => REG_NACK,
            Message::Unreg { .. } => UNREG,
            Message::UnregAck => UNREG_ACK,
            Message::UnregNack => UNREG_NACK,
            Message::Data { .. } => DATA,
            Message::Nack => NACK,
        }
    }
}

/// The `N` bytes at `at`.
#[inline]
fn field<const N: usize>(bytes: &[u8], at: usize) -> [u8; N] {
    *bytes[at..]
        .first_chunk()
        .expect("a field inside the message")
}

/// The 16-bit field at `at`.
#[inline]
pub fn get16(bytes: &[u8], at: usize) -> u16 {
    u16::from_be_bytes(field(bytes, at))
}

/// The 32-bit field at `at`.
#[inline]
pub fn get32(bytes: &[u8], at: usize) -> u32 {
    u32::from_be_bytes(field(bytes, at))
}

/// The 64-bit field at `at`.
#[inline]
pub fn get64(bytes: &[u8], at: usize) -> u64 {
    u64::from_be_bytes(field(bytes, at))
}

/// Writes fields one after another, from the start of what it was lent.
pub struct Writer<'a> {
    out: &'a mut [u8],
    at: usize,
}

impl<'a> Writer<'a> {
    pub fn new(out: &'a mut [u8]) -> Writer<'a> {
        Writer { out, at: 0 }
    }

    /// Begins a DS message with its header.
    pub fn message(out: &'a mut [u8], ds_type: u32, payload_len: usize) -> Writer<'a> {
        // Replies have at most 2,584 bytes of payload.
        Writer::new(out).put32(ds_type).put32(payload_len as u32)
    }

    #[inline]
    pub fn bytes(mut self, bytes: &[u8]) -> Self {
        self.out[self.at..self.at + bytes.len()].copy_from_slice(bytes);
        self.at += bytes.len();
        self
    }

    pub fn put16(self, value: u16) -> Self {
        self.bytes(&value.to_be_bytes())
    }

    pub fn put32(self, value: u32) -> Self {
        self.bytes(&value.to_be_bytes())
    }

    pub fn put64(self, value: u64) -> Self {
        self.bytes(&value.to_be_bytes())
    }

    /// How many bytes were written.
    pub fn length(self) -> usize {
        self.at
    }
}

/// The message, if it is well formed.
pub fn parse(message: &[u8]) -> Option<Message<'_>> {
    let (header, payload) = message.split_at_checked(HEADER)?;
    let length = payload.len();
    if get32(header, 4) as usize != length || length > MAX_PAYLOAD {
        return None;
    }
    let handle = || get64(payload, 0);
    match (get32(header, 0), length) {
        (INIT_REQ, 4) => Some(Message::InitReq {
            major: get16(payload, 0),
        }),
        (REG_REQ, 13..=1_036) => {
            let id = &payload[12..];
            let asked = RegReq {
                handle: handle(),
                major: get16(payload, 8),
                minor: get16(payload, 10),
                id,
            };
            ends_at_only_zero(id).then_some(Message::RegReq(asked))
        }
        (REG_ACK, 10) => Some(Message::RegAck {
            handle: handle(),
            minor: get16(payload, 8),
        }),
        (REG_NACK, 18) => Some(Message::RegNack { handle: handle() }),
        (UNREG, 8) => Some(Message::Unreg { handle: handle() }),
        (UNREG_ACK, 8) => Some(Message::UnregAck),
        (UNREG_NACK, 8) => Some(Message::UnregNack),
        (DATA, 8..) => Some(Message::Data {
            handle: handle(),
            data: &payload[8..],
        }),
        (NACK, 16) => Some(Message::Nack),
        _ => None,
    }
}

/// Whether an id or name has its only zero at its end.
pub fn ends_at_only_zero(name: &[u8]) -> bool {
    matches!(name.split_last(), Some((0, before)) if !before.contains(&0))
}
