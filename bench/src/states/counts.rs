//! What made states and the calls on them reached.

use super::agents::Answer;
use super::call::{Call, Lent, CALLS};
use super::defects::{defect, DEFECTS};
use super::front_counts::FrontCounts;
use super::spoil::SPOILT;
use crate::proved;
use independent::block::BLOCK_WORDS;
use independent::device::service::REPLY_BYTES;
use independent::entry::{slot_word, COUNT, KIND};
use independent::memory::{QUERY_BYTES, RECORDS_START, RESULT_BYTES};
use independent::order::service::{self, DENIED, PENDING};
use independent::{wire, State};
use std::collections::BTreeMap;

/// The replies to requests of orders, as they are told.
const REPLIES: [&str; 4] = ["success", "denied", "pending", "invalid message"];

/// What a REG_REQ got, and what else was about the peer's services.
const PEERS: [&str; 8] = [
    "acknowledged",
    "DUP",
    "told 0",
    "told our major",
    "ended",
    "data",
    "data shown",
    "data refused",
];

/// What needs more than 16 blocks or records.
const MORE: [&str; 9] = [
    "a sound state of 17 to 64 blocks",
    "a setup accepted of 17 to 64 blocks",
    "a request of 17 to 64 records answered",
    "a reply of 2,592 bytes",
    "CONFIGURE of a block from 16 on",
    "UNCONFIGURE of 17 to 64 records begun",
    "a block from 16 on settled",
    "a record from 16 on settled",
    "a late reply of 17 to 64 records",
];

/// The places in MORE of what a call on a state met.
fn more(state: &State, call: &Call, answer: Answer, lent: &Lent) -> Vec<usize> {
    let mut met = Vec::new();
    if state.is_sound() && state.blocks.count > 16 {
        met.push(0);
    }
    if answer.refusal != 0 {
        return met;
    }
    if let Call::Setup([blocks, ..]) = call {
        if blocks.len() > 16 * BLOCK_WORDS {
            met.push(1);
        }
    }
    if !matches!(call, Call::Receive(..) | Call::Work(_)) {
        return met;
    }
    let slot = slot_word(state.last + 1);
    let (first, second) = (lent.journal[slot], lent.journal[slot + 1]);
    let records = answer.length.saturating_sub(RECORDS_START);
    let is_work = matches!(call, Call::Work(_));
    let tests = [
        (!is_work && records > 16 * QUERY_BYTES, 2),
        (answer.length == 2_592, 3),
        (KIND.of(first) == 11 && second >> 16 != 0, 4),
        (KIND.of(first) == 12 && COUNT.of(first) > 16, 5),
        (KIND.of(first) == 15 && second & 63 > 15, 6),
        (KIND.of(first) == 15 && second >> 6 > 15, 7),
        (is_work && records > 16 * RESULT_BYTES, 8),
    ];
    let reached = tests.iter().filter(|(reached, _)| *reached);
    met.extend(reached.map(|(_, place)| *place));
    met
}

/// How many states were sound and unsound, and the answers of each call by
/// refusal number.
#[derive(Default)]
pub struct Counts {
    sound: u64,
    unsound: u64,
    answers: [[u64; 9]; CALLS.len()],
    /// The states that a defect makes unsound, by defect.
    defects: BTreeMap<&'static str, u64>,
    /// The states of which a word is spoilt, by what it is.
    spoilt: [u64; SPOILT.len()],
    /// The replies to device requests by result.
    results: [u64; 4],
    /// The replies to requests of orders.
    replies: [u64; REPLIES.len()],
    /// The orders taken: shutdown and panic.
    taken: [u64; 2],
    /// What was about the peer's services.
    peers: [u64; PEERS.len()],
    /// What was about 17 to 64 blocks and records.
    more: [u64; MORE.len()],
    /// What was about fronts.
    fronts: FrontCounts,
}

/// A state, what is spoilt in its words, and a front.
type Given<'a> = (&'a State, Option<&'static str>, &'a proved::Front);

/// The place of a name in a list.
fn place(list: &[&str], name: Option<&str>) -> Option<usize> {
    list.iter().position(|listed| Some(*listed) == name)
}

/// The data of a reply that is long enough for one of an order. The part that
/// show gives may be longer than the output.
fn data_of(answer: Answer, lent: &Lent) -> Option<&[u8]> {
    let data = lent.output.get(wire::DATA_START..answer.length)?;
    (data.len() >= service::REPLY_BYTES).then_some(data)
}

/// The place in PEERS of what a call was about, if it is one of them.
fn of_peer(state: &State, call: &Call, answer: Answer, lent: &Lent) -> Option<usize> {
    let message = match call {
        Call::Show(..) => return (answer.length > 0).then_some(6),
        Call::Receive(_, message) if answer.refusal == 0 => wire::parse(message)?,
        _ => return None,
    };
    let reply = &lent.output[..answer.length];
    let kind = KIND.of(lent.journal[slot_word(state.last + 1)]);
    match (message, kind) {
        (_, 22) => Some(0),
        (wire::Message::RegReq(_), 17) => {
            Some(match (wire::get64(reply, 16), wire::get16(reply, 24)) {
                (wire::REG_DUP, _) => 1,
                (_, 0) => 2,
                _ => 3,
            })
        }
        (_, 23) => Some(4),
        (_, 24) => Some(5),
        (wire::Message::Data { handle, .. }, 9) if handle >> 63 == 0 => Some(7),
        _ => None,
    }
}

impl Counts {
    /// Counts a call on a state, with what is spoilt in its words.
    pub fn add(&mut self, given: Given, call: &Call, answer: Answer, lent: &Lent) {
        let (state, spoilt, front) = given;
        match state.is_sound() && spoilt.is_none() {
            true => {
                self.sound += 1;
                self.fronts.add(state, front, call, answer);
            }
            false => self.unsound += 1,
        }
        if let Some(defect) = defect(state) {
            *self.defects.entry(defect).or_default() += 1;
        }
        for place in more(state, call, answer, lent) {
            self.more[place] += 1;
        }
        if let Some(place) = place(&SPOILT, spoilt) {
            self.spoilt[place] += 1;
        }
        if let (Call::Receive(..), Some(data)) = (call, data_of(answer, lent)) {
            self.replied(data);
        }
        if let Some(place) = of_peer(state, call, answer, lent) {
            self.peers[place] += 1;
        }
        if let [order @ 1..=2, _] = answer.order {
            self.taken[order as usize - 1] += 1;
        }
        self.answers[call.number()][answer.refusal as usize] += 1;
    }

    /// Counts a reply to a device request or to one of an order. No other reply
    /// has its length.
    fn replied(&mut self, data: &[u8]) {
        let result = wire::get32(data, 8);
        let reason = &data[service::REPLY_BYTES..];
        let order = match (result, reason) {
            (0, b"") => 0,
            (1, DENIED) => 1,
            (1, PENDING) => 2,
            (2, b"") => 3,
            _ if data.len() == REPLY_BYTES => {
                self.results[result as usize] += 1;
                return;
            }
            _ => return,
        };
        self.replies[order] += 1;
    }

    pub fn print(&self) {
        println!("states: {} sound, {} unsound", self.sound, self.unsound);
        print!("{:9}{:>9}", "refusal", "none");
        (1..=8).for_each(|number| print!("{number:>9}"));
        println!();
        for ((name, _), answers) in CALLS.iter().zip(&self.answers) {
            print!("{name:9}");
            answers.iter().for_each(|count| print!("{count:>9}"));
            println!();
        }
        for name in DEFECTS {
            println!("states with {name}: {}", self.defects_of(name));
        }
        for (name, count) in SPOILT.iter().zip(self.spoilt) {
            println!("states with {name}: {count}");
        }
        println!("device requests by result: {:?}", self.results);
        for (name, count) in REPLIES.iter().zip(self.replies) {
            println!("requests of orders, {name}: {count}");
        }
        println!("orders taken, shutdown and panic: {:?}", self.taken);
        for (name, count) in PEERS.iter().zip(self.peers) {
            println!("of the peer, {name}: {count}");
        }
        for (name, count) in MORE.iter().zip(self.more) {
            println!("{name}: {count}");
        }
        self.fronts.print();
    }

    /// The states that a defect makes unsound.
    fn defects_of(&self, name: &str) -> u64 {
        self.defects.get(name).copied().unwrap_or(0)
    }

    /// Whether each call had every answer that it can have; names what is
    /// missing.
    pub fn are_whole(&self) -> bool {
        let defects: Vec<u64> = DEFECTS.iter().map(|name| self.defects_of(name)).collect();
        let defects = [&defects[..], &self.spoilt].concat();
        let results = [&self.results[..], &self.replies, &self.taken].concat();
        let others = [&self.peers[..], &self.more].concat();
        let all = [defects, results, others].concat();
        let mut whole = !all.contains(&0) && self.fronts.are_whole();
        if !whole {
            println!(
                "a defect, a result of a request, an order, something of the peer, of many \
                 blocks or of fronts never came"
            );
        }
        for ((name, possible), answers) in CALLS.iter().zip(&self.answers) {
            for number in possible.iter().filter(|number| answers[**number] == 0) {
                println!("{name} never had answer {number}");
                whole = false;
            }
        }
        whole
    }
}
