//! What block lists, searches for blocks and the empty state met.

use crate::block::{Block, Blocks, Pair, BLOCK_WORDS, MAX_BLOCKS};
use crate::lines::Call;
use crate::memory::{request_number, Request};
use crate::state::State;
use crate::wire::{self, Message};

/// From this record or block on, a count has a group of its own.
pub const MORE: usize = 16;

/// The calls that a state may refuse.
const CALLS: &str = "receive, offer, withdraw, close, work, drain, permit, take, piece, reopen";
const LOOKS: &str = "1, 2, 3, 4, 5, 6, 7";

/// The counts of blocks that any long list of calls must reach.
pub const MUST_REACH: [(&str, &str); 25] = [
    ("refusal 1", "setup"),
    ("refusal 8", CALLS),
    ("refused 8 before a setup", CALLS),
    ("refused 8 after setup was refused 7", CALLS),
    ("refused 8 after setup was refused 1", CALLS),
    ("setup refused 1", "with good lists, before 7"),
    ("state shown", "before a setup, after a refused setup"),
    ("entry kind", "31"),
    (
        "block list",
        "of 0, of 1, of 2 to 15, of 16, of 17 to 63, of 64",
    ),
    (
        "block list refused",
        "65 blocks, more blocks, no whole blocks, a rule at a block up to 15, \
         a rule at a block from 16 on",
    ),
    ("search found after", LOOKS),
    ("search in vain after", "0, 1, 2, 3, 4, 5, 6, 7"),
    ("records in CONFIGURE", RECORDS),
    ("records in UNCONFIGURE", RECORDS),
    ("records in QUERY", RECORDS),
    ("result/status from record 16 on", RESULTS),
    ("result/status of a block from 16 on", KNOWN),
    ("QUERY from record 16 on", QUERY),
    (
        "QUERY of a block from 16 on",
        "none permanent, part permanent, wholly permanent",
    ),
    ("entry 11", "of a block up to 15, of a block from 16 on"),
    (
        "entry 12",
        "of up to 16 records, of 17 to 63 records, of 64 records",
    ),
    (
        "entry 15",
        "code 0 of a record from 16 on, code 4 of a record from 16 on, \
         code 0 of a block from 16 on, code 4 of a block from 16 on",
    ),
    (
        "removal of 17 to 64 records",
        "all settled, FAILURE from record 16 on, PERM from record 16 on, \
         CANCELLED from record 16 on, CANCELLED before record 16, \
         FAILURE before record 16, PERM before record 16, without a reply",
    ),
    ("STATUS at a record from 16 on", "open, cancelled"),
    ("STATUS of 17 to 64 records", "all settled"),
];

const RECORDS: &str = "1, 2 to 15, 16, 17 to 63, 64, 65 as ERROR";
const RESULTS: &str = "0/1, 0/2, 1/0, 1/1, 1/2, 2/0, 2/1, 2/2, 3/0, 3/1, 3/2, 4/1, 4/2, 5/2";
/// The same of blocks that are known.
const KNOWN: &str = "0/1, 0/2, 1/1, 1/2, 2/1, 2/2, 3/1, 3/2, 4/1, 4/2, 5/2";
const QUERY: &str = "none permanent, part permanent, wholly permanent, size 0";

/// Why the state is the empty one.
#[derive(Clone, Copy, Default, PartialEq, Eq)]
pub enum Empty {
    #[default]
    NoSetup,
    Refused(u64),
}

impl Empty {
    /// The name for a call that such a state refuses, and for its lines.
    pub fn name(self, call: &Call) -> Option<String> {
        let why = match self {
            Empty::NoSetup => "before a setup".to_string(),
            Empty::Refused(number) => format!("after setup was refused {number}"),
        };
        match call {
            Call::State if self == Empty::NoSetup => Some("state shown before a setup".into()),
            Call::State => Some("state shown after a refused setup".into()),
            Call::Setup(_) | Call::Show(..) => None,
            _ if !call.is_counted() => None,
            _ => Some(format!("refused 8 {why} {}", call.name())),
        }
    }
}

/// The name for a block list that setup was given with a journal.
pub fn list_name(words: &[u64]) -> String {
    let count = words.len() / BLOCK_WORDS;
    let refused = match Blocks::from_words(words) {
        Some(_) => {
            let count = match count {
                0 => "0",
                1 => "1",
                2..=15 => "2 to 15",
                16 => "16",
                17..=63 => "17 to 63",
                _ => "64",
            };
            return format!("block list of {count}");
        }
        None if !words.len().is_multiple_of(BLOCK_WORDS) => "no whole blocks",
        None if count == MAX_BLOCKS + 1 => "65 blocks",
        None if count > MAX_BLOCKS => "more blocks",
        // The list up to the sixteenth block is good, so a later one is bad.
        None if Blocks::from_words(&words[..count.min(MORE) * BLOCK_WORDS]).is_some() => {
            "a rule at a block from 16 on"
        }
        None => "a rule at a block up to 15",
    };
    format!("block list refused {refused}")
}

/// How many blocks the search by halves looks at, each the lower middle of
/// those left, and whether it finds the pair's.
fn looks(blocks: &[Block], pair: Pair) -> (usize, bool) {
    let (mut left, mut looked) = (blocks, 0);
    while !left.is_empty() {
        let (below, rest) = left.split_at((left.len() - 1) / 2);
        looked += 1;
        if rest[0].base == pair.addr {
            return (looked, rest[0].pages * crate::block::PAGE == pair.size);
        }
        left = if pair.addr < rest[0].base {
            below
        } else {
            &rest[1..]
        };
    }
    (looked, false)
}

/// The names of what a memory request searches for, in the state before it, and
/// of the record that STATUS tells of, if it is accepted. One of bad form or
/// whose number does not rise searches for nothing, and a removal that begins
/// does not yet.
pub fn searches(state: &State, call: &Call) -> Vec<String> {
    let Call::Receive(channel, message) = call else {
        return Vec::new();
    };
    let Some(Message::Data { handle, data }) = wire::parse(message) else {
        return Vec::new();
    };
    let at = *channel as usize;
    let channel = state.channels.get(at);
    if channel.and_then(|channel| channel.registered(handle)) != Some(0)
        || state.highest[at] >= Some(request_number(data))
    {
        return Vec::new();
    }
    let pairs = match Request::read(data) {
        Some(Request::Configure(pairs) | Request::Query(pairs)) => pairs,
        Some(Request::Unconfigure(pairs)) if state.removal.is_some() => pairs,
        Some(Request::Status) => return status(state).into_iter().collect(),
        _ => return Vec::new(),
    };
    let searched = pairs.iter().map(|pair| {
        let (looked, found) = looks(state.blocks.listed(), pair);
        assert_eq!(state.blocks.find(pair).is_some(), found);
        let how = if found { "found" } else { "in vain" };
        format!("search {how} after {looked}")
    });
    searched.collect()
}

fn status(state: &State) -> Option<String> {
    let removal = state.removal.as_ref()?;
    let how = if removal.cancelled {
        "cancelled"
    } else {
        "open"
    };
    if removal.count > MORE && removal.position == removal.count {
        return Some("STATUS of 17 to 64 records all settled".into());
    }
    let later = (MORE..removal.count).contains(&removal.position);
    later.then(|| format!("STATUS at a record from 16 on {how}"))
}

/// Whether a removal of many records is outstanding.
pub fn has_many(state: &State) -> bool {
    let removal = state.removal.as_ref();
    removal.is_some_and(|removal| removal.count > MORE)
}

/// The name for a step at which a removal of many records ended without a
/// reply: whether the state before it had such a removal, the state after it and
/// what was answered.
pub fn silent_end(many: bool, call: &Call, state: &State, answer: &[u8]) -> Option<String> {
    let ended = matches!(call, Call::Work(_)) && many && state.removal.is_none();
    let silent = ended && answer == b"work accepted 0\n";
    silent.then(|| "removal of 17 to 64 records without a reply".into())
}

/// The name for a count of records.
pub fn records(count: usize) -> &'static str {
    match count {
        1 => "1",
        2..=15 => "2 to 15",
        16 => "16",
        17..=63 => "17 to 63",
        _ => "64",
    }
}
