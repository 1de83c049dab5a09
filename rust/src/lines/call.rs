//! One line as a call.

use super::device::DeviceLine;
use super::peer::PeerLine;
use super::Ask;

/// A drain's run has 0 to 256 words.
pub const MAX_RUN: u64 = 256;
/// The lent output has 0 to 4,096 bytes.
pub const MAX_OUTPUT: u64 = 4_096;
/// The lent journal has 0 to 200 words.
pub const MAX_JOURNAL: u64 = 200;

/// A call, or one of the lines that ask for the state, set a size or add a
/// device or an id.
#[derive(Clone, Debug, PartialEq, Eq)]
pub enum Call {
    Setup(Vec<u64>),
    Receive(u64, Vec<u8>),
    Offer(u64, u64),
    Withdraw(u64, u64),
    Close(u64),
    Work(u64),
    Drain(usize),
    Show(u64, Vec<u8>),
    State,
    Output(usize),
    Journal(usize),
    Device(DeviceLine),
    Peer(PeerLine),
    Permit(u64, bool),
    Take,
    Piece(u64, Vec<u8>),
    Reopen(u64),
}

impl Ask for Call {
    /// A leading, trailing or doubled space makes an empty field, which is no
    /// name, number or bytes.
    fn from_line(line: &[u8]) -> Option<Call> {
        let mut fields = line.split(|byte| *byte == b' ');
        let name = fields.next()?;
        if name == b"setup" {
            return fields.map(number).collect::<Option<_>>().map(Call::Setup);
        }
        if name == b"device" {
            return DeviceLine::from_fields(fields).map(Call::Device);
        }
        if name == b"peer" {
            return PeerLine::from_fields(fields).map(Call::Peer);
        }
        // No other call has more than two fields.
        let (first, second, third) = (fields.next(), fields.next(), fields.next());
        if third.is_some() {
            return None;
        }
        match (name, first, second) {
            (b"receive", Some(channel), data) => {
                Some(Call::Receive(number(channel)?, bytes(data)?))
            }
            (b"show", Some(channel), data) => Some(Call::Show(number(channel)?, bytes(data)?)),
            (b"piece", Some(channel), data) => Some(Call::Piece(number(channel)?, bytes(data)?)),
            (b"reopen", Some(channel), None) => Some(Call::Reopen(number(channel)?)),
            (b"offer", Some(channel), Some(service)) => {
                Some(Call::Offer(number(channel)?, number(service)?))
            }
            (b"withdraw", Some(channel), Some(service)) => {
                Some(Call::Withdraw(number(channel)?, number(service)?))
            }
            (b"close", Some(channel), None) => Some(Call::Close(number(channel)?)),
            (b"work", Some(pages), None) => Some(Call::Work(number(pages)?)),
            (b"drain", Some(words), None) => Some(Call::Drain(up_to(words, MAX_RUN)?)),
            (b"output", Some(size), None) => Some(Call::Output(up_to(size, MAX_OUTPUT)?)),
            (b"journal", Some(words), None) => Some(Call::Journal(up_to(words, MAX_JOURNAL)?)),
            (b"permit", Some(service), Some(permitted)) => {
                Some(Call::Permit(number(service)?, up_to(permitted, 1)? == 1))
            }
            (b"take", None, None) => Some(Call::Take),
            (b"state", None, None) => Some(Call::State),
            _ => None,
        }
    }
}

impl Call {
    /// Whether it is a call of the agent or its front; the other lines only
    /// ask for the state or prepare a call.
    pub fn is_counted(&self) -> bool {
        !matches!(
            self,
            Call::State | Call::Output(_) | Call::Journal(_) | Call::Device(_) | Call::Peer(_)
        )
    }

    /// The name that begins the call's line.
    pub fn name(&self) -> &'static str {
        match self {
            Call::Setup(_) => "setup",
            Call::Receive(..) => "receive",
            Call::Offer(..) => "offer",
            Call::Withdraw(..) => "withdraw",
            Call::Close(_) => "close",
            Call::Work(_) => "work",
            Call::Drain(_) => "drain",
            Call::Show(..) => "show",
            Call::State => "state",
            Call::Output(_) => "output",
            Call::Journal(_) => "journal",
            Call::Device(_) => "device",
            Call::Peer(_) => "peer",
            Call::Permit(..) => "permit",
            Call::Take => "take",
            Call::Piece(..) => "piece",
            Call::Reopen(_) => "reopen",
        }
    }
}

/// A number below 2^64, decimal or with 0x in hexadecimal.
pub fn number(field: &[u8]) -> Option<u64> {
    let (digits, base) = match field.strip_prefix(b"0x") {
        Some(digits) => (digits, 16),
        None => (field, 10),
    };
    if digits.is_empty() {
        return None;
    }
    digits.iter().try_fold(0u64, |value, digit| {
        let digit = char::from(*digit).to_digit(base)?;
        value
            .checked_mul(u64::from(base))?
            .checked_add(u64::from(digit))
    })
}

/// A number that is at most `most`.
fn up_to(field: &[u8], most: u64) -> Option<usize> {
    number(field)
        .filter(|value| *value <= most)
        .map(|value| value as usize)
}

/// Bytes: an even, non-zero count of hexadecimal digits, or no field.
pub(super) fn bytes(field: Option<&[u8]>) -> Option<Vec<u8>> {
    let Some(digits) = field else {
        return Some(Vec::new());
    };
    if digits.is_empty() || digits.len() % 2 != 0 {
        return None;
    }
    let digit = |byte: u8| char::from(byte).to_digit(16);
    digits
        .chunks_exact(2)
        .map(|pair| Some((digit(pair[0])? << 4 | digit(pair[1])?) as u8))
        .collect()
}
