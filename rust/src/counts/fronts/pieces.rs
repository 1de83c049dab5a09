//! What one piece met.

use super::super::ds_name;
use super::{stage_name, Before, History};
use crate::front::{Stage, MAX_MESSAGE};
use crate::wire::{self, get32, Message, HEADER, MAX_PAYLOAD};

pub const STAGES: &str = "while empty, while keeping, while dropping";
pub const LENGTHS: &str = "1 byte, 2 to 7 bytes, 8 bytes, more bytes, more bytes than a message";
pub const FULL: &str = "while empty, while keeping, at a payload_len above 4096";
pub const ORDER: &str = "8 before 1, 8 before 2, 8 before 3, 1 before 2, 1 before 3, 1 before 4, \
     2 before 3, 2 before 4, 3 before 4";
pub const AGAIN: &str = "offered again while full, cut so that it keeps bytes while full, \
     offered again after a drain of one entry, offered again after a drain of more, \
     offered otherwise after a drain";
pub const KEPT: &str = "1, 2, 3, 4, 5, 6, 7, 8, 9 to 4102, 4103";
pub const DROPPED: &str = "1 byte, more bytes, an INIT_REQ, more bytes than a message";
pub const LEFT: &str = "an unfinished message, a whole message, several messages, bytes to drop";
pub const REST: &str = "offered as it was, offered with more bytes, offered cut, not offered";
pub const CUTS: &str = "1, 2, 3, 4, 5, 6, 7, 8, 9, 10, 11, 12, 13, 14, 15, 16, 17, 18, 19, 20, \
     21, 22, 23, 24, 25, 26, 27, 28, 29, 30, 31, 32 to 4102, 4103";
/// The last place that is counted by itself.
const COUNTED_CUTS: usize = 31;
pub const TYPES: &str = "INIT_REQ, REG_REQ, REG_ACK, REG_NACK, UNREG, UNREG_ACK, UNREG_NACK, \
     DATA, NACK, badly formed, with a payload_len above 4096";
pub const PAYLOADS: &str = "0, 1 to 4094, 4095, 4096, 4097, 4098 or more, 2^32 - 1";
pub const BEGAN: &str = "on a ready channel, on a closed channel, after 0 bytes kept, \
     after 1 bytes kept, after 2 bytes kept, after 3 bytes kept, after 4 bytes kept, \
     after 5 bytes kept, after 6 bytes kept, after 7 bytes kept, with bytes after it, \
     without bytes after it";

/// A piece, what it found and what it was answered.
pub struct Piece<'a> {
    before: &'a Before,
    channel: u64,
    bytes: &'a [u8],
    /// How many bytes were taken; none if it was refused.
    taken: Option<usize>,
    /// The number of its refusal, else 0.
    refusal: u64,
    /// Whether a message was given to the agent, and was replied to.
    given: bool,
    replied: bool,
}

impl<'a> Piece<'a> {
    pub fn new(before: &'a Before, channel: u64, bytes: &'a [u8], fields: &[&str]) -> Piece<'a> {
        let number = |place: usize| fields.get(place).and_then(|field| field.parse().ok());
        let (taken, refusal) = match fields.get(1) {
            Some(&"accepted") => (number(2), 0),
            _ => (None, number(2).unwrap_or(0)),
        };
        Piece {
            before,
            channel,
            bytes,
            taken,
            refusal: refusal as u64,
            given: fields.get(3) == Some(&"message"),
            replied: fields.len() > 4,
        }
    }

    /// The names of what it met on a channel with this history.
    pub fn names(&self, history: &mut History) -> Vec<String> {
        let Some(taken) = self.taken else {
            return self.refused(history);
        };
        let stage = self.before.stage(self.channel).unwrap_or(Stage::EMPTY);
        let mut names = vec![self.length_name(stage)];
        names.extend(self.again(history));
        let before = history.take_rest();
        if !before.is_empty() {
            names.push(rest_name(&before, self.bytes));
        }
        let rest = &self.bytes[taken..];
        match (stage, &self.before.message) {
            (Stage::Dropping, _) => names.extend(self.dropped()),
            (Stage::Keeping(kept), Some(message)) if self.given => {
                names.extend(self.given(kept, message, rest, history));
            }
            (Stage::Keeping(kept), _) => names.extend(self.kept(kept, history)),
        }
        history.rest = rest.to_vec();
        names
    }

    fn length_name(&self, stage: Stage) -> String {
        let name = match self.bytes.len() {
            0 => return format!("piece of 0 bytes {}", stage_name(stage)),
            1 => "1 byte",
            2..=7 => "2 to 7 bytes",
            8 => "8 bytes",
            9..=MAX_MESSAGE => "more bytes",
            _ => "more bytes than a message",
        };
        format!("piece of {name}")
    }

    fn refused(&self, history: &mut History) -> Vec<String> {
        let (before, refusal) = (self.before, self.refusal);
        let mut names = Vec::new();
        if self.bytes.is_empty() {
            names.push(format!("piece of 0 bytes refused {refusal}"));
        }
        let stage = before.stage(self.channel);
        let later = [
            (1, !before.journal),
            (2, !before.output),
            (3, stage.is_none()),
            (
                4,
                before.full && (before.message.is_some() || stage.is_none()),
            ),
        ];
        let later = later.into_iter().filter(|(number, met)| {
            // 8 is tested first.
            *met && (refusal == 8 || *number > refusal)
        });
        names.extend(later.map(|(number, _)| format!("piece refused {refusal} before {number}")));
        match (refusal, stage) {
            (1 | 2, Some(stage)) => {
                names.push(format!("piece refused {refusal} {}", stage_name(stage)));
            }
            (4, Some(stage)) => names.extend(self.refused_full(stage, history)),
            _ => {}
        }
        names
    }

    /// Refused by 4.
    fn refused_full(&self, stage: Stage, history: &mut History) -> Vec<String> {
        let mut names = vec![format!("piece refused 4 {}", stage_name(stage))];
        let message = self.before.message.as_deref().unwrap_or(&[]);
        if message.len() == HEADER && payload_len(message) > MAX_PAYLOAD {
            names.push("piece refused 4 at a payload_len above 4096".into());
        }
        let earlier = history.refused.replace((self.bytes.to_vec(), 0));
        if earlier == Some((self.bytes.to_vec(), 0)) {
            names.push("refused piece offered again while full".into());
        }
        names
    }

    /// What became of a piece that was refused by 4 before this one.
    fn again(&self, history: &mut History) -> Option<String> {
        let (earlier, drained) = history.refused.take()?;
        let how = match drained {
            0 if !self.given && !self.bytes.is_empty() && earlier.starts_with(self.bytes) => {
                "cut so that it keeps bytes while full"
            }
            0 => return None,
            1 if earlier == self.bytes => "offered again after a drain of one entry",
            _ if earlier == self.bytes => "offered again after a drain of more",
            _ if earlier.starts_with(self.bytes) || self.bytes.starts_with(&earlier) => {
                "offered otherwise after a drain"
            }
            _ => return None,
        };
        Some(format!("refused piece {how}"))
    }

    /// Dropped, all of it.
    fn dropped(&self) -> Vec<String> {
        if self.bytes.is_empty() {
            return Vec::new();
        }
        let length = match self.bytes.len() {
            1 => "1 byte",
            2..=MAX_MESSAGE => "more bytes",
            _ => "more bytes than a message",
        };
        let mut names = vec![format!("piece dropped {length}")];
        if let Some(Message::InitReq { .. }) = wire::parse(self.bytes) {
            names.push("piece dropped an INIT_REQ".into());
        }
        if self.before.full {
            names.push("piece with 64 entries held dropped".into());
        }
        names
    }

    /// Kept, all of it, behind `kept` bytes.
    fn kept(&self, kept: usize, history: &mut History) -> Vec<String> {
        if self.bytes.is_empty() {
            return Vec::new();
        }
        let length = kept + self.bytes.len();
        history.cuts.push(length);
        let length = match length {
            ..=8 => length.to_string(),
            9..=4_102 => "9 to 4102".into(),
            _ => "4103".into(),
        };
        let mut names = vec![format!("piece kept {length}")];
        if self.before.full {
            names.push("piece with 64 entries held kept".into());
        }
        names
    }

    /// It ended a message, of which `kept` bytes were kept.
    fn given(
        &self,
        kept: usize,
        message: &[u8],
        rest: &[u8],
        history: &mut History,
    ) -> Vec<String> {
        let reply = if self.replied { "with" } else { "without" };
        let mut names = vec![
            format!("message given {reply} a reply"),
            payload_name(message),
        ];
        let over = message.len() == HEADER && payload_len(message) > MAX_PAYLOAD;
        if over {
            names.extend(self.began(kept, rest));
        }
        match rest {
            [] => names.push("piece taken whole with its message".into()),
            _ => {
                names.push("piece taken in part".into());
                let left = if over { "bytes to drop" } else { left(rest) };
                names.push(format!("piece left {left}"));
            }
        }
        let cuts = std::mem::take(&mut history.cuts);
        names.extend(cuts.iter().map(|place| cut_name(*place)));
        let pieces = cuts.len() + 1;
        if pieces == message.len() {
            names.push("message of pieces a byte each".into());
        }
        let count = match pieces {
            ..=2 => pieces.to_string(),
            3..=7 => "3 to 7".into(),
            _ => "8 or more".into(),
        };
        names.push(format!("message of pieces {count}"));
        if pieces > 1 {
            let name = match wire::parse(message) {
                _ if over => "with a payload_len above 4096",
                Some(parsed) => ds_name(parsed.ds_type()),
                None => "badly formed",
            };
            names.push(format!("message in pieces {name}"));
        }
        names
    }

    /// Its channel's front drops from now on.
    fn began(&self, kept: usize, rest: &[u8]) -> Vec<String> {
        let ready = self.before.ready.get(self.channel as usize);
        let channel = match ready {
            Some(true) => "on a ready channel",
            _ => "on a closed channel",
        };
        let behind = if rest.is_empty() { "without" } else { "with" };
        vec![
            format!("dropping began {channel}"),
            format!("dropping began after {kept} bytes kept"),
            format!("dropping began {behind} bytes after it"),
        ]
    }
}

fn payload_len(message: &[u8]) -> usize {
    get32(message, 4) as usize
}

fn payload_name(message: &[u8]) -> String {
    let length = match payload_len(message) {
        0 => "0",
        1..=4_094 => "1 to 4094",
        4_095 => "4095",
        4_096 => "4096",
        4_097 => "4097",
        0xffff_ffff => "2^32 - 1",
        _ => "4098 or more",
    };
    format!("message payload_len {length}")
}

fn cut_name(place: usize) -> String {
    match place {
        ..=COUNTED_CUTS => format!("message cut at byte {place}"),
        32..=4_102 => "message cut at byte 32 to 4102".into(),
        _ => "message cut at byte 4103".into(),
    }
}

/// What was left of a piece behind its message.
fn left(rest: &[u8]) -> &'static str {
    let mut whole = 0;
    let mut rest = rest;
    while rest.len() >= HEADER {
        let payload = payload_len(rest);
        let length = match payload {
            ..=MAX_PAYLOAD => HEADER + payload,
            _ => HEADER,
        };
        let Some(next) = rest.get(length..) else {
            break;
        };
        whole += 1;
        rest = next;
    }
    match whole {
        0 => "an unfinished message",
        1 => "a whole message",
        _ => "several messages",
    }
}

/// How the rest of a piece was offered by the next one.
fn rest_name(rest: &[u8], next: &[u8]) -> String {
    let how = match next.strip_prefix(rest) {
        Some([]) => "offered as it was",
        Some(_) => "offered with more bytes",
        None if rest.starts_with(next) => "offered cut",
        None => "not offered",
    };
    format!("rest of a piece {how}")
}
