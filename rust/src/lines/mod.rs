//! The host: lists of calls as lines of text, and the answers to them.

mod call;
mod device;
mod feed;
mod host;
mod peer;

pub use call::{number, Call};
pub use device::{DeviceLine, MAX_DEVICE_LINES, MAX_NAME_BYTES};
pub use feed::{answer_of, serve, Ask, FeedOf, LineOf, Program, MAX_LINE};
pub use host::{write_blocks, write_channels, write_digits, Host};
pub use peer::{PeerLine, MAX_ID_BYTES, MAX_PEER_LINES};

/// What a line of the host is.
pub type Line = LineOf<Call>;

/// The host over an input that comes in pieces.
pub type Feed = FeedOf<Host>;

/// The host's output for a whole input.
pub fn answer(input: &[u8]) -> Vec<u8> {
    answer_of::<Host>(input)
}
