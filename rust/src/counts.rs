//! What a list of calls reached, counted from the input and a host's output.

mod blocks;
mod devices;
mod fronts;
mod numbers;
mod orders;
mod peers;
mod replay;

use crate::comparing::Tally;
use crate::device::service::REPLY_BYTES;
use crate::entry::{CODE, COUNT, KIND, SERVICE};
use crate::lines::{Call, Line};
use crate::memory::{self, PAIR_BYTES, QUERY_BYTES, RECORDS_START, RESULT_BYTES};
use crate::reader::Edition;
use crate::wire::{self, get32, get64};
use replay::Replay;
use std::collections::BTreeMap;
use std::fmt::{self, Display, Formatter};

/// The counts that any long list of calls must reach, as groups of members.
const MUST_REACH: [(&str, &str); 30] = [
    ("call setup", "accepted, refused"),
    ("call receive", "accepted, refused"),
    ("call offer", "accepted, refused"),
    ("call withdraw", "accepted, refused"),
    ("call close", "accepted, refused"),
    ("call work", "accepted, refused"),
    ("call drain", "accepted, refused"),
    ("call show", "empty"),
    ("refusal 1", "receive, offer, withdraw, close, work, drain"),
    ("refusal 2", "receive, offer, withdraw, close, work"),
    ("refusal 3", "receive, offer, withdraw, close, work"),
    ("refusal 4", "receive, offer, withdraw, close, work"),
    ("refusal 6", "offer, withdraw, work"),
    ("refusal 7", "setup"),
    (
        "entry kind",
        " 1,  2,  3,  4,  5,  6,  7,  9, 10, 11, 12, 13, 14, 15, 16, 17",
    ),
    (
        "entry code",
        "10/0, 10/1, 10/2, 15/0, 15/4, 16/0, 16/1, 16/3, 16/5",
    ),
    ("entry end", "with reply, without reply"),
    (
        "DS received",
        "INIT_ACK bad, INIT_NACK bad, other type bad, under 8 bytes bad",
    ),
    (
        "DS sent",
        "INIT_ACK, INIT_NACK, REG_REQ, REG_NACK, UNREG, UNREG_ACK, UNREG_NACK, DATA, NACK",
    ),
    (
        "memory received",
        "UNCONFIGURE -> no reply, other type -> ERROR, under 16 bytes -> ERROR",
    ),
    ("memory sent", "OK of receive, ERROR of receive, OK of work"),
    (
        "result/status",
        "0/1, 0/2, 1/0, 1/1, 1/2, 2/0, 2/1, 2/2, 3/0, 3/1, 3/2, 4/1, 4/2, 5/2",
    ),
    (
        "repeat in CONFIGURE",
        "adjacent, apart, OK then NOWORK, OK then FAILURE, NOWORK then NOWORK, \
         NOWORK then FAILURE, FAILURE then FAILURE, BLOCKED then BLOCKED",
    ),
    (
        "repeat in UNCONFIGURE",
        "adjacent, apart, OK then NOWORK, OK then FAILURE, OK then CANCELLED, \
         NOWORK then NOWORK, NOWORK then FAILURE, NOWORK then CANCELLED, PERM then FAILURE, \
         FAILURE then FAILURE, CANCELLED then CANCELLED, BLOCKED then BLOCKED",
    ),
    ("repeat in QUERY", "adjacent, apart"),
    (
        "QUERY record",
        "none permanent, part permanent, wholly permanent, size 0",
    ),
    ("STATUS reply", "idle, open, total 0"),
    ("number refused", numbers::REFUSED),
    ("number first", numbers::FIRST),
    ("number accepted", numbers::ACCEPTED),
];

/// The names of the counts that any long list of calls must reach.
fn must_reach() -> Vec<String> {
    let mut names = vec!["line bad".to_string()];
    let of_tickets = devices::MUST_REACH.into_iter().chain(orders::MUST_REACH);
    let of_tickets = of_tickets.chain(peers::MUST_REACH);
    let of_tickets = of_tickets.chain(blocks::MUST_REACH);
    let of_tickets = of_tickets.chain(fronts::MUST_REACH);
    for (group, members) in MUST_REACH.into_iter().chain(of_tickets) {
        names.extend(
            members
                .split(", ")
                .map(|member| format!("{group} {member}")),
        );
    }
    for name in DS_GOOD {
        names.extend(["good", "bad"].map(|form| format!("DS received {name} {form}")));
    }
    for name in REQUESTS {
        let answers = ["OK", "ERROR", "NACK"];
        names.extend(answers.map(|answer| format!("memory received {name} -> {answer}")));
        names.extend(["equal", "lower"].map(|how| format!("number refused {name} {how}")));
    }
    // A repeat, and what became of it, also from record 16 on.
    let repeats: Vec<String> = names
        .iter()
        .filter_map(|name| name.strip_prefix("repeat in "))
        .map(|rest| format!("repeat from record 16 on in {rest}"))
        .collect();
    names.extend(repeats);
    names
}

/// The memory requests.
const REQUESTS: [&str; 5] = ["CONFIGURE", "UNCONFIGURE", "STATUS", "CANCEL", "QUERY"];

/// The types that can be well formed.
const DS_GOOD: [&str; 9] = [
    "INIT_REQ",
    "REG_REQ",
    "REG_ACK",
    "REG_NACK",
    "UNREG",
    "UNREG_ACK",
    "UNREG_NACK",
    "DATA",
    "NACK",
];

fn ds_name(ds_type: u32) -> &'static str {
    match ds_type {
        wire::INIT_REQ => "INIT_REQ",
        wire::INIT_ACK => "INIT_ACK",
        wire::INIT_NACK => "INIT_NACK",
        wire::REG_REQ => "REG_REQ",
        wire::REG_ACK => "REG_ACK",
        wire::REG_NACK => "REG_NACK",
        wire::UNREG => "UNREG",
        wire::UNREG_ACK => "UNREG_ACK",
        wire::UNREG_NACK => "UNREG_NACK",
        wire::DATA => "DATA",
        wire::NACK => "NACK",
        _ => "other type",
    }
}

fn memory_name(memory_type: u32) -> &'static str {
    match memory_type {
        memory::CONFIGURE => "CONFIGURE",
        memory::UNCONFIGURE => "UNCONFIGURE",
        memory::UNCONF_STATUS => "STATUS",
        memory::CANCEL => "CANCEL",
        memory::QUERY => "QUERY",
        memory::OK => "OK",
        memory::ERROR => "ERROR",
        _ => "other type",
    }
}

/// The name of a record's result.
fn result_name(result: u32) -> &'static str {
    const NAMES: [&str; 6] = ["OK", "FAILURE", "BLOCKED", "CANCELLED", "NOWORK", "PERM"];
    NAMES.get(result as usize).unwrap_or(&"other result")
}

/// Counts by name, and the refusals by number among the answers on made states
/// and on the list of bounds.
pub struct Counts {
    listed: BTreeMap<String, u64>,
    made: Option<[u64; 9]>,
    replay: Replay,
}

impl Default for Counts {
    fn default() -> Counts {
        Counts {
            listed: must_reach().into_iter().map(|name| (name, 0)).collect(),
            made: None,
            replay: Replay::default(),
        }
    }
}

impl Tally for Counts {
    fn line(&mut self, line: &[u8], output: &[u8]) {
        let output = String::from_utf8_lossy(output);
        match Line::read(line) {
            Line::PassedOver => self.add("line passed over".into()),
            Line::Call(call) if !output.starts_with("bad line ") => {
                self.call(&call, &output);
                for name in self.replay.call(&call) {
                    self.add(name);
                }
            }
            Line::Bad | Line::Call(_) => {
                self.add("line bad".into());
                let why = devices::line::bad(line).or_else(|| orders::line::bad(line));
                let why = why.or_else(|| peers::line::bad(line));
                let why = why.or_else(|| fronts::line::bad(line));
                why.into_iter().for_each(|name| self.add(name));
                if line.starts_with(b"setup") && self.replay.has_devices() {
                    self.add("device lines kept by a bad setup line".into());
                }
                if line.starts_with(b"setup") && self.replay.has_ids() {
                    self.add("peer lines kept by a bad setup line".into());
                }
                if line.starts_with(b"setup") && self.replay.has_front() {
                    self.add("front kept by a bad setup line".into());
                }
            }
        }
    }

    fn zeros(&self) -> Vec<String> {
        let listed = must_reach()
            .into_iter()
            .filter(|name| self.listed[name] == 0);
        let made = self.made.iter().flat_map(|made| {
            let zero = [5, 7, 8].into_iter().filter(|number| made[*number] == 0);
            zero.map(|number| format!("bounds: refusal {number}"))
        });
        listed.chain(made).collect()
    }
}

impl Counts {
    fn add(&mut self, name: String) {
        *self.listed.entry(name).or_default() += 1;
    }

    fn call(&mut self, call: &Call, output: &str) {
        let name = call.name();
        let head = output.lines().next().unwrap_or_default();
        let fields: Vec<&str> = head.split(' ').collect();
        match (call, &fields[..]) {
            (Call::Show(..), _) => {
                let part = if fields.len() > 1 { "part" } else { "empty" };
                self.add(format!("call show {part}"));
            }
            _ if !call.is_counted() => self.add(format!("call {name}")),
            (_, [_, "refused", number]) => {
                self.add(format!("call {name} refused"));
                self.add(format!("refusal {number} {name}"));
                if let (Call::Permit(service, _), "3") = (call, *number) {
                    self.add(orders::refused_service(*service));
                }
            }
            (_, [_, "accepted", rest @ ..]) => {
                self.add(format!("call {name} accepted"));
                match (call, rest) {
                    // It stands for the receive that it makes, if any.
                    (Call::Piece(..), [_, "message", reply @ ..]) => {
                        if let Some(made) = self.replay.made(call) {
                            self.accepted(&made, reply);
                        }
                    }
                    (Call::Piece(..), _) => {}
                    _ => self.accepted(call, rest),
                }
            }
            _ => self.add(format!("call {name} with an odd answer")),
        }
        for entry in output
            .lines()
            .filter_map(|line| line.strip_prefix("entry "))
        {
            self.entry(entry);
        }
    }

    /// An entry's kind, and the codes of the kinds that have some.
    fn entry(&mut self, words: &str) {
        let mut words = words.split(' ').map(|word| u64::from_str_radix(word, 16));
        let mut next = || words.next().and_then(Result::ok).unwrap_or(0);
        let (first, second) = (next(), next());
        let (kind, code) = (KIND.of(first), CODE.of(first));
        self.add(format!("entry kind {kind:2}"));
        match (kind, SERVICE.of(first)) {
            (10, 1) => self.add(format!("entry code 10 of service 1 {code}")),
            (10 | 15 | 16 | 18 | 19 | 21, _) => self.add(format!("entry code {kind}/{code}")),
            _ => {}
        }
        if kind == 16 {
            let sent = if COUNT.of(first) == 1 {
                "with"
            } else {
                "without"
            };
            self.add(format!("entry end {sent} reply"));
        }
        self.more_entry(kind, first, second);
    }

    /// The blocks and records that an entry tells of.
    fn more_entry(&mut self, kind: u64, first: u64, second: u64) {
        match kind {
            11 => {
                let more = second >> blocks::MORE != 0;
                let place = if more { "from 16 on" } else { "up to 15" };
                self.add(format!("entry 11 of a block {place}"));
            }
            12 => {
                let count = match blocks::records(COUNT.of(first) as usize) {
                    more @ ("17 to 63" | "64") => more,
                    _ => "up to 16",
                };
                self.add(format!("entry 12 of {count} records"));
            }
            15 => {
                let code = CODE.of(first);
                let (record, block) = Edition::New.settled(first, second);
                for (place, what) in [(record, "record"), (block, "block")] {
                    if place >= blocks::MORE as u64 {
                        self.add(format!("entry 15 code {code} of a {what} from 16 on"));
                    }
                }
            }
            _ => {}
        }
    }

    /// The message received, and the reply sent.
    fn accepted(&mut self, call: &Call, rest: &[&str]) {
        let reply = match call {
            Call::Drain(_) => return,
            Call::Take => {
                return orders::taken(rest)
                    .into_iter()
                    .for_each(|name| self.add(name))
            }
            Call::Work(_) => rest.get(1),
            _ => rest.first(),
        };
        let reply = bytes(reply.copied().unwrap_or_default());
        if reply.len() >= 8 {
            self.add(format!("DS sent {}", ds_name(get32(&reply, 0))));
        }
        match call {
            Call::Receive(_, message) => self.received(message, &reply),
            Call::Work(_) if reply.len() >= RECORDS_START => {
                self.add(format!(
                    "memory sent {} of work",
                    memory_name(get32(&reply, 16))
                ));
                self.results(&reply);
                self.repeats("UNCONFIGURE", &reply, RESULT_BYTES);
                self.removal_end(&reply);
            }
            _ => {}
        }
    }

    fn received(&mut self, message: &[u8], reply: &[u8]) {
        let good = wire::parse(message);
        let name = match message.len() {
            0..=7 => "under 8 bytes",
            _ => ds_name(get32(message, 0)),
        };
        let form = if good.is_some() { "good" } else { "bad" };
        self.add(format!("DS received {name} {form}"));
        if let Some(name) = orders::reply(reply) {
            return self.add(format!("order reply {name}"));
        }
        // No reply to a memory message has the length of one to a device request.
        let of_device = reply.len() == wire::DATA_START + REPLY_BYTES;
        if let (Some(wire::Message::Data { data, .. }), false) = (good, of_device) {
            self.memory(data, reply);
        }
    }

    /// A memory message by what was replied. Without a reply it was begun, or
    /// the channel was closed.
    fn memory(&mut self, data: &[u8], reply: &[u8]) {
        let asked = match data.len() {
            0..=15 => "under 16 bytes",
            _ => memory_name(get32(data, 0)),
        };
        let replied = match reply.len() {
            0 => "no reply",
            _ if get32(reply, 0) == wire::NACK => "NACK",
            _ => memory_name(get32(reply, 16)),
        };
        self.add(format!("memory received {asked} -> {replied}"));
        if let "CONFIGURE" | "UNCONFIGURE" | "QUERY" = asked {
            self.asked_records(asked, data, replied);
        }
        if reply.len() < RECORDS_START {
            return;
        }
        self.add(format!("memory sent {replied} of receive"));
        match (asked, replied) {
            ("CONFIGURE" | "UNCONFIGURE", "OK") => {
                self.results(reply);
                self.repeats(asked, reply, RESULT_BYTES);
            }
            ("QUERY", "OK") => {
                self.query(reply);
                self.repeats(asked, reply, QUERY_BYTES);
            }
            ("STATUS", "OK") => self.status(reply),
            _ => {}
        }
    }

    /// How many records a request has whose form is right but for their count.
    fn asked_records(&mut self, asked: &str, data: &[u8], replied: &str) {
        let count = get32(data, 4) as usize;
        let whole = data.len() == memory::HEADER + count.saturating_mul(PAIR_BYTES);
        match (count, replied) {
            (1..=64, "OK" | "no reply") => {
                let count = blocks::records(count);
                self.add(format!("records in {asked} {count}"));
            }
            (65, "ERROR") if whole => self.add(format!("records in {asked} 65 as ERROR")),
            _ => {}
        }
    }

    fn results(&mut self, reply: &[u8]) {
        let records = reply[RECORDS_START..].chunks_exact(RESULT_BYTES);
        for (place, record) in records.enumerate() {
            let (result, status) = (get32(record, 16), get32(record, 20));
            self.add(format!("result/status {result}/{status}"));
            if place >= blocks::MORE {
                self.add(format!("result/status from record 16 on {result}/{status}"));
            }
            if self.replay.is_later_block(record) {
                self.add(format!(
                    "result/status of a block from 16 on {result}/{status}"
                ));
            }
        }
    }

    /// How a removal of many records ended, from the results of its reply.
    fn removal_end(&mut self, reply: &[u8]) {
        let records = reply[RECORDS_START..].chunks_exact(RESULT_BYTES);
        if records.len() <= blocks::MORE {
            return;
        }
        let results = records.map(|record| result_name(get32(record, 16)));
        let end = results
            .zip(0..)
            .find(|(result, _)| !matches!(*result, "OK" | "NOWORK"));
        let name = match end {
            None => "all settled".to_string(),
            Some((result, place)) if place < blocks::MORE => format!("{result} before record 16"),
            Some((result, _)) => format!("{result} from record 16 on"),
        };
        self.add(format!("removal of 17 to 64 records {name}"));
    }

    /// The records whose pair stands before, adjacent or apart; for results
    /// also what the first of them got and what the repeat did. The pairs of
    /// an UNCONFIGURE stand in the reply of work.
    fn repeats(&mut self, asked: &str, reply: &[u8], size: usize) {
        let records: Vec<&[u8]> = reply[RECORDS_START..].chunks_exact(size).collect();
        for (at, record) in records.iter().enumerate() {
            let same = |before: &&[u8]| before[..PAIR_BYTES] == record[..PAIR_BYTES];
            let Some(first) = records[..at].iter().copied().find(same) else {
                continue;
            };
            let place = match same(&records[at - 1]) {
                true => "adjacent",
                false => "apart",
            };
            let mut told = vec![format!("in {asked} {place}")];
            if size == RESULT_BYTES {
                let [first, then] = [first, record].map(|record| result_name(get32(record, 16)));
                told.push(format!("in {asked} {first} then {then}"));
            }
            for told in told {
                if at >= blocks::MORE {
                    self.add(format!("repeat from record 16 on {told}"));
                }
                self.add(format!("repeat {told}"));
            }
        }
    }

    fn query(&mut self, reply: &[u8]) {
        let records = reply[RECORDS_START..].chunks_exact(QUERY_BYTES);
        for (place, record) in records.enumerate() {
            let (size, permanent) = (get64(record, 8), get64(record, 16));
            let name = match permanent {
                _ if size == 0 => "size 0",
                0 => "none permanent",
                _ if permanent == size => "wholly permanent",
                _ => "part permanent",
            };
            self.add(format!("QUERY record {name}"));
            if place >= blocks::MORE {
                self.add(format!("QUERY from record 16 on {name}"));
            }
            if self.replay.is_later_block(record) {
                self.add(format!("QUERY of a block from 16 on {name}"));
            }
        }
    }

    fn status(&mut self, reply: &[u8]) {
        let name = match reply.len() {
            RECORDS_START => "idle",
            _ if get64(reply, RECORDS_START) == 0 => "total 0",
            _ => "open",
        };
        self.add(format!("STATUS reply {name}"));
    }

    /// Counts the refusals among the answers on made states and on the list of bounds.
    pub fn made(&mut self, text: &str) {
        let made = self.made.get_or_insert([0; 9]);
        for line in text.lines() {
            let number = line
                .rsplit_once(" refused ")
                .map(|(_, number)| number.parse());
            if let Some(Ok(number @ 1..=8)) = number {
                made[number as usize] += 1;
            }
        }
    }

    /// The refusals of one number in lists.
    fn refusals(&self, number: usize) -> u64 {
        let start = format!("refusal {number} ");
        let named = self
            .listed
            .iter()
            .filter(|(name, _)| name.starts_with(&start));
        named.map(|(_, count)| count).sum()
    }

    /// All calls of lists, `state` not counted.
    pub fn calls(&self) -> u64 {
        let not = [
            "call state",
            "call output",
            "call journal",
            "call device",
            "call peer",
        ];
        let calls = self
            .listed
            .iter()
            .filter(|(name, _)| name.starts_with("call "));
        calls
            .filter(|(name, _)| !not.contains(&name.as_str()))
            .map(|(_, count)| count)
            .sum()
    }
}

impl Display for Counts {
    fn fmt(&self, text: &mut Formatter) -> fmt::Result {
        for (name, count) in &self.listed {
            writeln!(text, "{name:66} {count:>10}")?;
        }
        writeln!(text, "{:66} {:>10} {:>11}", "refusals", "lists", "bounds")?;
        for number in 1..=8 {
            let lists = self.refusals(number);
            let made = match &self.made {
                Some(made) => made[number].to_string(),
                None => "-".to_string(),
            };
            writeln!(text, "refusal {number:<58} {lists:>10} {made:>11}")?;
        }
        Ok(())
    }
}

/// The bytes that a line's hexadecimal digits stand for.
fn bytes(digits: &str) -> Vec<u8> {
    let digit = |byte: u8| char::from(byte).to_digit(16).unwrap_or(0);
    let pairs = digits.as_bytes().chunks_exact(2);
    pairs
        .map(|pair| (digit(pair[0]) << 4 | digit(pair[1])) as u8)
        .collect()
}
