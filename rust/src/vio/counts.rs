//! What a list of lines reached: each rule, by its answer and by the session
//! in which it was met. The rule is the one that the independent end followed.

use super::end::MAX_VERSIONS;
use super::words::{Message, ACK, CTRL, INFO, NACK, VER_INFO};
use super::{Call, Done, End, Fault, Host, Line, ListFault, Received, Rule, Session, Words};
use crate::comparing::Tally;
use std::collections::BTreeMap;
use std::fmt::{self, Display, Formatter};

/// The counts that any long list must reach, as groups of members. Where a
/// message is ignored for one field "alone", nothing else in it is wrong.
const MUST_REACH: [(&str, &str); 16] = [
    (
        "end",
        "accepted, accepted with 16 versions, refused 7 for major 0, \
         refused 7 for a major twice, refused 7 for over 16 versions",
    ),
    ("start refused 8", "without an end, after a refused end"),
    ("receive refused 8", "without an end, after a refused end"),
    ("start", SESSIONS),
    ("request received", SESSIONS),
    (
        "request answered by ACK",
        "minor asked is lower, minor held is lower, minors alike",
    ),
    (
        "request answered by NACK",
        "next lower major, 0 0, wrong class of a major held, wrong class of a major not held",
    ),
    ("ACK agreed", "minor asked, lower minor"),
    ("NACK next request", "major told, lower major"),
    ("NACK try ended", "by 0, by none left, by wrong class"),
    (
        "ACK ignored",
        "session id alone, class alone, major alone, minor above alone, several, \
         no request with no version, no request when agreed, no request when refused",
    ),
    (
        "NACK ignored",
        "session id alone, class alone, told major above alone, told major asked alone, \
         0 with a minor alone, several, \
         no request with no version, no request when agreed, no request when refused",
    ),
    (
        "other message ignored",
        "type alone, subtype alone, envelope alone, several",
    ),
    (
        "reserved bits not read",
        "request, ACK agreed, NACK next request, NACK try ended",
    ),
    ("state", "no version, asked, agreed, refused, no end"),
    ("line", "bad, passed over"),
];

/// An own request that is open is dropped.
const SESSIONS: &str = "with no version, with its own request dropped, when agreed, when refused";

fn session_name(session: Session) -> &'static str {
    match session {
        Session::NoVersion => "with no version",
        Session::Asked { .. } => "with its own request dropped",
        Session::Agreed { .. } => "when agreed",
        Session::Refused => "when refused",
    }
}

fn fault_name(fault: Fault) -> &'static str {
    match fault {
        Fault::Sid => "session id",
        Fault::Class => "class",
        Fault::Major => "major",
        Fault::MinorAbove => "minor above",
        Fault::ToldAbove => "told major above",
        Fault::ToldAsked => "told major asked",
        Fault::ZeroWithMinor => "0 with a minor",
    }
}

fn list_fault_name(fault: ListFault) -> &'static str {
    match fault {
        ListFault::Empty => "no version",
        ListFault::MajorZero => "major 0",
        ListFault::MajorTwice => "a major twice",
        ListFault::TooMany => "over 16 versions",
    }
}

/// The names of the counts that any long list must reach.
fn must_reach() -> impl Iterator<Item = String> {
    MUST_REACH.iter().flat_map(|(group, members)| {
        let names = members.split(", ");
        names.map(move |member| format!("{group} {member}"))
    })
}

/// Counts by name.
pub struct Counts {
    host: Host,
    /// Whether the last line `end` of each end was refused.
    refused: [bool; 2],
    lines: u64,
    listed: BTreeMap<String, u64>,
}

impl Default for Counts {
    fn default() -> Counts {
        Counts {
            host: Host::default(),
            refused: [false; 2],
            lines: 0,
            listed: must_reach().map(|name| (name, 0)).collect(),
        }
    }
}

impl Tally for Counts {
    fn line(&mut self, line: &[u8], _: &[u8]) {
        self.lines += 1;
        match Line::read(line) {
            Line::PassedOver => self.add("line passed over"),
            Line::Bad => self.add("line bad"),
            Line::Call(call) => self.call(&call),
        }
    }

    fn zeros(&self) -> Vec<String> {
        must_reach().filter(|name| self.listed[name] == 0).collect()
    }
}

impl Counts {
    fn add(&mut self, name: &str) {
        *self.listed.entry(name.into()).or_default() += 1;
    }

    /// The lines counted.
    pub fn lines(&self) -> u64 {
        self.lines
    }

    fn call(&mut self, call: &Call) {
        let (Call::End(number, ..)
        | Call::Start(number, _)
        | Call::Receive(number, ..)
        | Call::State(number)) = *call;
        let before = self.host.end(number).map(End::session);
        let done = self.host.perform(call);
        match (call, done, before) {
            (Call::End(.., list), Done::End(made), _) => self.made(number, list.len(), made),
            (Call::State(_), Done::State(_, session), _) => self.state(number, session),
            (_, Done::Start(Some(_)), Some(before)) => {
                self.add(&format!("start {}", session_name(before)));
            }
            (Call::Receive(_, _, words), Done::Receive(Some(received)), Some(before)) => {
                self.received(*words, &received, before);
            }
            (Call::Start(..), ..) => self.no_end("start", number),
            _ => self.no_end("receive", number),
        }
    }

    fn made(&mut self, number: usize, versions: usize, made: Result<(), ListFault>) {
        self.refused[number] = made.is_err();
        match made {
            Ok(()) if versions == MAX_VERSIONS => self.add("end accepted with 16 versions"),
            Ok(()) => self.add("end accepted"),
            Err(fault) => self.add(&format!("end refused 7 for {}", list_fault_name(fault))),
        }
    }

    fn no_end(&mut self, name: &str, number: usize) {
        let when = match self.refused[number] {
            true => "after a refused end",
            false => "without an end",
        };
        self.add(&format!("{name} refused 8 {when}"));
    }

    fn state(&mut self, number: usize, session: Session) {
        self.add(match session {
            _ if self.host.end(number).is_none() => "state no end",
            Session::NoVersion => "state no version",
            Session::Asked { .. } => "state asked",
            Session::Agreed { .. } => "state agreed",
            Session::Refused => "state refused",
        });
    }

    fn received(&mut self, words: Words, received: &Received, before: Session) {
        let message = Message::unpack(words);
        let (group, member) = rule_name(&received.rule, &message, before);
        self.add(&format!("{group} {member}"));
        let is_request = group.starts_with("request");
        if is_request {
            self.add(&format!("request received {}", session_name(before)));
        }
        if words[1] >> 40 != 0 && !group.ends_with("ignored") {
            let what = if is_request { "request" } else { group };
            self.add(&format!("reserved bits not read {what}"));
        }
    }
}

/// The group and the member of the count of a message received.
fn rule_name(rule: &Rule, message: &Message, before: Session) -> (&'static str, String) {
    let (group, member) = match rule {
        Rule::Acknowledged { asked, held } => ("request answered by ACK", minors(*asked, *held)),
        Rule::WrongClass { held: true } => (REFUSED, "wrong class of a major held"),
        Rule::WrongClass { held: false } => (REFUSED, "wrong class of a major not held"),
        Rule::ToldLower => (REFUSED, "next lower major"),
        Rule::ToldZero => (REFUSED, "0 0"),
        Rule::Agreed { asked, told } if asked == told => ("ACK agreed", "minor asked"),
        Rule::Agreed { .. } => ("ACK agreed", "lower minor"),
        Rule::AskedNext { told, asked } if told == asked => ("NACK next request", "major told"),
        Rule::AskedNext { .. } => ("NACK next request", "lower major"),
        Rule::EndedByClass => (ENDED, "by wrong class"),
        Rule::EndedByZero => (ENDED, "by 0"),
        Rule::EndedByNoneLeft => (ENDED, "by none left"),
        Rule::NoneOpen => {
            let when = session_name(before);
            return (ignored(message), format!("no request {when}"));
        }
        Rule::NotGot(faults) => {
            let names = faults.iter().map(|fault| fault_name(*fault));
            return (ignored(message), alone(names.collect()));
        }
        Rule::Other => return ("other message ignored", alone(other_fields(message))),
    };
    (group, member.into())
}

const REFUSED: &str = "request answered by NACK";
const ENDED: &str = "NACK try ended";

fn minors(asked: u16, held: u16) -> &'static str {
    match asked.cmp(&held) {
        std::cmp::Ordering::Less => "minor asked is lower",
        std::cmp::Ordering::Greater => "minor held is lower",
        std::cmp::Ordering::Equal => "minors alike",
    }
}

fn ignored(message: &Message) -> &'static str {
    match message.subtype {
        ACK => "ACK ignored",
        _ => "NACK ignored",
    }
}

/// The one name, or that there are several.
fn alone(names: Vec<&str>) -> String {
    match names[..] {
        [name] => format!("{name} alone"),
        _ => "several".into(),
    }
}

/// The fields that make a message none of the version phase.
fn other_fields(message: &Message) -> Vec<&'static str> {
    let fields = [
        ("type", message.kind != CTRL),
        ("subtype", ![INFO, ACK, NACK].contains(&message.subtype)),
        ("envelope", message.envelope != VER_INFO),
    ];
    let other = fields.into_iter().filter(|(_, other)| *other);
    other.map(|(name, _)| name).collect()
}

impl Display for Counts {
    fn fmt(&self, text: &mut Formatter) -> fmt::Result {
        for (name, count) in &self.listed {
            writeln!(text, "{name:60} {count:>10}")?;
        }
        Ok(())
    }
}
