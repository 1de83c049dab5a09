//! What pieces, reopening and the front met.

pub mod line;
mod pieces;

use crate::front::Stage;
use crate::lines::{Call, Host};
use crate::state::{CHANNELS, SLOTS};
use pieces::Piece;
use std::mem;

/// What leaves a front as it is.
const STAYS: &str = "INIT_REQ, a version refused, a message that closes, another message, close, \
     offer, withdraw, work, drain, permit, take, a piece of another channel, \
     reopening another channel";
const EMPTIED: &str = "a kept part by an accepted setup, a kept part by a refused setup, \
     dropping by an accepted setup, dropping by a refused setup";
const REOPENED: &str = "while empty, while keeping 1 to 7 bytes, while keeping 8 bytes or more, \
     while dropping, with another journal, with a short output, with 64 entries held";

/// The counts of the front that any long list of calls must reach.
pub const MUST_REACH: [(&str, &str); 36] = [
    ("call piece", "accepted, refused"),
    ("call reopen", "accepted, refused"),
    ("refusal 1", "piece"),
    ("refusal 2", "piece"),
    ("refusal 3", "piece, reopen"),
    ("refusal 4", "piece"),
    ("piece of", pieces::LENGTHS),
    ("piece of 0 bytes", pieces::STAGES),
    ("piece of 0 bytes refused", "1, 2, 3, 8"),
    ("piece refused 1", pieces::STAGES),
    ("piece refused 2", pieces::STAGES),
    ("piece refused 4", pieces::FULL),
    ("piece refused", pieces::ORDER),
    ("refused piece", pieces::AGAIN),
    ("piece with 64 entries held", "kept, dropped"),
    ("piece kept", pieces::KEPT),
    ("piece dropped", pieces::DROPPED),
    ("piece taken", "whole with its message, in part"),
    ("piece left", pieces::LEFT),
    ("rest of a piece", pieces::REST),
    ("message cut at byte", pieces::CUTS),
    ("message in pieces", pieces::TYPES),
    ("message of pieces", "1, 2, 3 to 7, 8 or more, a byte each"),
    ("message given", "with a reply, without a reply"),
    ("message payload_len", pieces::PAYLOADS),
    ("dropping began", pieces::BEGAN),
    ("reopened", REOPENED),
    ("kept part stays after", STAYS),
    ("dropping stays after", STAYS),
    ("fronts keeping at once", "1, 2, 3, 4"),
    ("fronts dropping at once", "1, 2, 3, 4"),
    ("front emptied of", EMPTIED),
    ("front", "kept by a bad setup line"),
    ("state shown with", "a kept part, dropping"),
    ("piece line bad", line::PIECE),
    ("reopen line bad", line::REOPEN),
];

/// What a call finds.
pub struct Before {
    stages: [Stage; CHANNELS],
    ready: [bool; CHANNELS],
    full: bool,
    journal: bool,
    output: bool,
    /// The message that a piece would give the agent.
    message: Option<Vec<u8>>,
}

impl Before {
    pub fn of(host: &Host, made: Option<&Call>) -> Before {
        let message = match made {
            Some(Call::Receive(_, message)) => Some(message.clone()),
            _ => None,
        };
        Before {
            stages: host.front.stages(),
            ready: host.state.channels.map(|channel| channel.ready),
            full: host.state.held == SLOTS,
            journal: host.lends_journal(),
            output: host.lends_output(),
            message,
        }
    }

    fn stage(&self, channel: u64) -> Option<Stage> {
        let at = usize::try_from(channel).ok()?;
        self.stages.get(at).copied()
    }
}

/// The name for what a front does.
fn stage_name(stage: Stage) -> &'static str {
    match stage {
        Stage::EMPTY => "while empty",
        Stage::Keeping(_) => "while keeping",
        Stage::Dropping => "while dropping",
    }
}

/// What a channel's stream was given that a front does not keep.
#[derive(Default)]
struct History {
    /// Where the pieces ended of the message whose beginning is kept.
    cuts: Vec<usize>,
    /// What was not taken of the last piece.
    rest: Vec<u8>,
    /// A piece that was refused by 4, and how many entries were drained since.
    refused: Option<(Vec<u8>, u64)>,
}

/// All channels' streams since the last setup.
#[derive(Default)]
pub struct Fronts {
    histories: [History; CHANNELS],
}

impl Fronts {
    /// The names of what a call met, from what it found, the kind of the entry
    /// that it added, if it did, and its answer.
    pub fn names(
        &mut self,
        before: &Before,
        call: &Call,
        kind: Option<u64>,
        host: &Host,
        answer: &[u8],
    ) -> Vec<String> {
        let answer = String::from_utf8_lossy(answer);
        let fields: Vec<&str> = answer.lines().next().unwrap_or("").split(' ').collect();
        let accepted = fields.get(1) == Some(&"accepted");
        let mut names = match call {
            Call::Setup(_) => {
                *self = Fronts::default();
                return emptied(before, accepted);
            }
            Call::State => return shown(before),
            Call::Piece(channel, bytes) => {
                let piece = Piece::new(before, *channel, bytes, &fields);
                let at = usize::try_from(*channel).unwrap_or(CHANNELS);
                match self.histories.get_mut(at) {
                    Some(history) => piece.names(history),
                    None => piece.names(&mut History::default()),
                }
            }
            Call::Reopen(channel) if accepted => {
                self.histories[*channel as usize] = History::default();
                reopened(before, *channel)
            }
            Call::Drain(_) if accepted => {
                let count = fields.get(2).and_then(|count| count.parse().ok());
                self.drained(count.unwrap_or(0));
                Vec::new()
            }
            _ => Vec::new(),
        };
        if accepted {
            names.extend(stays(before, call, kind, host));
        }
        if let (Call::Piece(..), true) = (call, accepted) {
            names.extend(at_once(&host.front.stages()));
        }
        names
    }

    fn drained(&mut self, count: u64) {
        let refused = self.histories.iter_mut();
        for (_, drained) in refused.filter_map(|history| history.refused.as_mut()) {
            *drained += count;
        }
    }
}

/// Whether a front keeps bytes.
fn is_keeping(stage: &Stage) -> bool {
    !matches!(*stage, Stage::EMPTY | Stage::Dropping)
}

fn is_dropping(stage: &Stage) -> bool {
    *stage == Stage::Dropping
}

fn emptied(before: &Before, accepted: bool) -> Vec<String> {
    let by = if accepted { "an accepted" } else { "a refused" };
    let mut names = Vec::new();
    if before.stages.iter().any(is_keeping) {
        names.push(format!("front emptied of a kept part by {by} setup"));
    }
    if before.stages.iter().any(is_dropping) {
        names.push(format!("front emptied of dropping by {by} setup"));
    }
    names
}

fn shown(before: &Before) -> Vec<String> {
    let mut names = Vec::new();
    if before.stages.iter().any(is_keeping) {
        names.push("state shown with a kept part".into());
    }
    if before.stages.iter().any(is_dropping) {
        names.push("state shown with dropping".into());
    }
    names
}

fn reopened(before: &Before, channel: u64) -> Vec<String> {
    let stage = before.stage(channel).unwrap_or(Stage::EMPTY);
    let found = match stage {
        Stage::Keeping(1..=7) => "while keeping 1 to 7 bytes",
        Stage::Keeping(8..) => "while keeping 8 bytes or more",
        _ => stage_name(stage),
    };
    let lent = [
        (!before.journal, "with another journal"),
        (!before.output, "with a short output"),
        (before.full, "with 64 entries held"),
    ];
    let met = lent.into_iter().filter(|(met, _)| *met);
    [found]
        .into_iter()
        .chain(met.map(|(_, name)| name))
        .map(|name| format!("reopened {name}"))
        .collect()
}

/// The fronts that an accepted call left as they were: that of its channel, and
/// of the calls that have none, and those of the front, those of the others.
fn stays(before: &Before, call: &Call, kind: Option<u64>, host: &Host) -> Vec<String> {
    let (own, by) = match (call, kind) {
        (Call::Receive(channel, _), Some(1)) => (Some(*channel), "INIT_REQ"),
        (Call::Receive(channel, _), Some(2)) => (Some(*channel), "a message that closes"),
        (Call::Receive(channel, _), Some(3)) => (Some(*channel), "a version refused"),
        (Call::Receive(channel, _), _) => (Some(*channel), "another message"),
        (Call::Close(channel), _) => (Some(*channel), "close"),
        (Call::Offer(channel, _), _) => (Some(*channel), "offer"),
        (Call::Withdraw(channel, _), _) => (Some(*channel), "withdraw"),
        (Call::Work(_), _) => (None, "work"),
        (Call::Drain(_), _) => (None, "drain"),
        (Call::Permit(..), _) => (None, "permit"),
        (Call::Take, _) => (None, "take"),
        (Call::Piece(channel, _), _) => (Some(*channel), "a piece of another channel"),
        (Call::Reopen(channel), _) => (Some(*channel), "reopening another channel"),
        _ => return Vec::new(),
    };
    let of_front = matches!(call, Call::Piece(..) | Call::Reopen(_));
    let after = host.front.stages();
    let mut names = Vec::new();
    for (at, stage) in (0..).zip(before.stages) {
        if own.is_some_and(|own| (own == at) == of_front) {
            continue;
        }
        assert_eq!(stage, after[at as usize]);
        if is_keeping(&stage) {
            names.push(format!("kept part stays after {by}"));
        }
        if is_dropping(&stage) {
            names.push(format!("dropping stays after {by}"));
        }
    }
    names
}

fn at_once(stages: &[Stage]) -> Vec<String> {
    let keeping = stages.iter().filter(|stage| is_keeping(stage)).count();
    let dropping = stages.iter().filter(|stage| is_dropping(stage)).count();
    let mut names = Vec::new();
    if keeping > 0 {
        names.push(format!("fronts keeping at once {keeping}"));
    }
    if dropping > 0 {
        names.push(format!("fronts dropping at once {dropping}"));
    }
    names
}

impl History {
    /// The rest of the piece before, once the next one comes.
    fn take_rest(&mut self) -> Vec<u8> {
        mem::take(&mut self.rest)
    }
}
