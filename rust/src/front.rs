//! The front of ticket 9 of 02: a hypervisor that hands over a stream gives its
//! bytes in pieces, and the front gives the agent each message once it is whole.
//! What it keeps stands beside the agent's state.

use crate::agent;
use crate::state::{passed, refusal, State, CHANNELS};
use crate::wire::{get32, HEADER, MAX_PAYLOAD};
use std::fmt::{self, Debug, Formatter};

/// The longest message.
pub const MAX_MESSAGE: usize = HEADER + MAX_PAYLOAD;

/// What the front does with the bytes of a channel.
#[derive(Clone, Copy, Debug, PartialEq, Eq)]
pub enum Stage {
    /// It keeps the beginning of a message, of so many bytes; 0 if it is empty.
    Keeping(usize),
    /// It drops all bytes until it is reopened.
    Dropping,
}

impl Stage {
    pub const EMPTY: Stage = Stage::Keeping(0);
}

/// One channel's front.
#[derive(Clone)]
pub struct Stream {
    pub stage: Stage,
    /// The bytes that are kept, at the start, with room for a whole message.
    pub bytes: [u8; MAX_MESSAGE],
}

/// The message that a piece ends.
struct End {
    /// The bytes of the message, those kept included.
    length: usize,
    /// A payload_len above 4,096: the message is cut after its header, and what
    /// comes after it is dropped.
    over: bool,
}

impl Stream {
    const EMPTY: Stream = Stream {
        stage: Stage::EMPTY,
        bytes: [0; MAX_MESSAGE],
    };

    /// The bytes kept.
    pub fn kept(&self) -> &[u8] {
        match self.stage {
            Stage::Keeping(length) => &self.bytes[..length.min(MAX_MESSAGE)],
            Stage::Dropping => &[],
        }
    }

    /// Whether a kept part with a whole header is the unfinished beginning of
    /// a message with a payload_len of at most 4,096.
    fn is_sound(&self) -> bool {
        match self.stage {
            Stage::Keeping(length) if length >= HEADER => {
                let payload = get32(&self.bytes, 4) as usize;
                payload <= MAX_PAYLOAD && length < HEADER + payload
            }
            _ => true,
        }
    }

    /// The header of the message whose beginning is kept, if this piece has
    /// what is missing of it.
    #[inline]
    fn header(&self, kept: usize, piece: &[u8]) -> Option<[u8; HEADER]> {
        let mut header = [0; HEADER];
        let (own, rest) = header.split_at_mut(kept.min(HEADER));
        own.copy_from_slice(&self.bytes[..own.len()]);
        rest.copy_from_slice(piece.get(..rest.len())?);
        Some(header)
    }

    /// The message that this piece ends, if it ends one.
    #[inline]
    fn end(&self, kept: usize, piece: &[u8]) -> Option<End> {
        let payload = get32(&self.header(kept, piece)?, 4) as usize;
        let over = payload > MAX_PAYLOAD;
        let length = if over { HEADER } else { HEADER + payload };
        (piece.len() >= length - kept).then_some(End { length, over })
    }

    /// Keeps all of a piece that ends no message.
    fn keep(&mut self, kept: usize, piece: &[u8]) {
        let length = kept + piece.len();
        self.bytes[kept..length].copy_from_slice(piece);
        self.stage = Stage::Keeping(length);
    }
}

/// Bytes that are not kept make no difference.
impl PartialEq for Stream {
    fn eq(&self, other: &Stream) -> bool {
        self.stage == other.stage && self.kept() == other.kept()
    }
}

impl Debug for Stream {
    fn fmt(&self, text: &mut Formatter) -> fmt::Result {
        write!(text, "{:?} {:02x?}", self.stage, self.kept())
    }
}

/// What the front holds, by channel.
#[derive(Clone, Debug, PartialEq)]
pub struct Front {
    pub streams: [Stream; CHANNELS],
}

impl Default for Front {
    fn default() -> Front {
        Front {
            streams: [const { Stream::EMPTY }; CHANNELS],
        }
    }
}

impl Front {
    /// Whether every channel's kept part is one that pieces can leave.
    pub fn is_sound(&self) -> bool {
        self.streams.iter().all(Stream::is_sound)
    }

    /// What each channel's front does.
    pub fn stages(&self) -> [Stage; CHANNELS] {
        [0, 1, 2, 3].map(|at: usize| self.streams[at].stage)
    }

    /// The message that a piece would give the agent in a sound front.
    pub fn message(&self, channel: u64, piece: &[u8]) -> Option<Vec<u8>> {
        let stream = self.streams.get(usize::try_from(channel).ok()?)?;
        let Stage::Keeping(kept) = stream.stage else {
            return None;
        };
        let length = stream.end(kept, piece)?.length;
        Some([stream.kept(), &piece[..length - kept]].concat())
    }

    /// Leaves every channel's front empty.
    pub fn clear(&mut self) {
        for stream in &mut self.streams {
            stream.stage = Stage::EMPTY;
        }
    }
}

/// What an accepted piece did.
#[derive(Clone, Copy, Debug, PartialEq, Eq)]
pub struct Taken {
    /// How many of its bytes were taken, from its start on.
    pub bytes: usize,
    /// The length of the reply, if a message was given to the agent.
    pub reply: Option<usize>,
}

/// Takes a piece of a channel's stream, all of it or up to the end of one
/// message, which is given to the agent. If the agent refuses that message,
/// nothing is taken.
pub fn piece(
    front: &mut Front,
    state: &mut State,
    channel: u64,
    bytes: &[u8],
    journal: &mut [u64],
    out: &mut [u8],
) -> Result<Taken, u64> {
    passed(&[(front.is_sound(), refusal::UNSOUND)])?;
    state.admit_lent(journal, out, channel < CHANNELS as u64)?;
    let at = channel as usize;
    let stream = &mut front.streams[at];
    let all = Taken {
        bytes: bytes.len(),
        reply: None,
    };
    let Stage::Keeping(kept) = stream.stage else {
        return Ok(all);
    };
    let Some(End { length, over }) = stream.end(kept, bytes) else {
        stream.keep(kept, bytes);
        return Ok(all);
    };
    state.admit_entry()?;
    let taken = &bytes[..length - kept];
    let message = match kept {
        // A message that is whole in its piece is not copied.
        0 => taken,
        _ => {
            stream.bytes[kept..length].copy_from_slice(taken);
            &stream.bytes[..length]
        }
    };
    let reply = agent::admitted(state, at, message, journal, out);
    stream.stage = if over { Stage::Dropping } else { Stage::EMPTY };
    Ok(Taken {
        bytes: taken.len(),
        reply: Some(reply),
    })
}

/// Leaves a channel's front empty, whether it keeps bytes, drops them or
/// neither.
pub fn reopen(front: &mut Front, state: &State, channel: u64) -> Result<(), u64> {
    passed(&[
        (front.is_sound() && state.is_sound(), refusal::UNSOUND),
        (channel < CHANNELS as u64, refusal::ARGUMENT),
    ])?;
    front.streams[channel as usize].stage = Stage::EMPTY;
    Ok(())
}
