//! One end: its class, the class that it accepts, the versions that it holds,
//! and its session.

use super::answer::{Answer, Fault, Request};
use super::words::{Message, Words, ACK, INFO, NACK};

/// The most versions that an end takes.
pub const MAX_VERSIONS: usize = 16;

#[derive(Clone, Copy, Debug, PartialEq, Eq)]
pub struct Version {
    pub major: u16,
    pub minor: u16,
}

impl Version {
    /// What a refusal tells where there is no lower major.
    pub const NONE: Version = Version { major: 0, minor: 0 };
}

/// Where an end stands.
#[derive(Clone, Copy, Debug, PartialEq, Eq)]
pub enum Session {
    /// Nothing was asked yet, or the other end's request was refused.
    NoVersion,
    /// Its own request is open.
    Asked {
        sid: u32,
        version: Version,
    },
    Agreed {
        sid: u32,
        version: Version,
    },
    /// Its own try has ended without a version.
    Refused,
}

/// Why versions are no list that an end may hold.
#[derive(Clone, Copy, Debug, PartialEq, Eq)]
pub enum ListFault {
    Empty,
    MajorZero,
    MajorTwice,
    TooMany,
}

/// The rule by which a message was handled.
#[derive(Clone, Debug, PartialEq, Eq)]
pub enum Rule {
    /// A request: a version of the major asked is held.
    Acknowledged {
        asked: u16,
        held: u16,
    },
    /// A request: the class is not the accepted one.
    WrongClass {
        held: bool,
    },
    /// A request: the next lower major held was told.
    ToldLower,
    /// A request: no lower major is held.
    ToldZero,
    /// An ACK: agreed, with the minor asked or a lower one.
    Agreed {
        asked: u16,
        told: u16,
    },
    /// A NACK: asked again.
    AskedNext {
        told: u16,
        asked: u16,
    },
    /// A NACK: the try has ended.
    EndedByClass,
    EndedByZero,
    EndedByNoneLeft,
    /// An ACK or a NACK without an open request.
    NoneOpen,
    /// An ACK or a NACK that the open request could not get.
    NotGot(Vec<Fault>),
    /// Any other message.
    Other,
}

/// How a message was handled, and what is sent.
#[derive(Clone, Debug, PartialEq, Eq)]
pub struct Received {
    pub rule: Rule,
    pub sent: Option<Words>,
}

impl Received {
    fn silent(rule: Rule) -> Received {
        Received { rule, sent: None }
    }

    fn sending(rule: Rule, message: Message) -> Received {
        Received {
            rule,
            sent: Some(message.pack()),
        }
    }
}

#[derive(Clone, Debug, PartialEq, Eq)]
pub struct End {
    class: u8,
    accepts: u8,
    /// From the highest major to the lowest.
    versions: Vec<Version>,
    session: Session,
}

impl End {
    /// "A list, not empty, of different majors from 1 up, each with its
    /// highest minor", in any order.
    pub fn new(class: u8, accepts: u8, list: &[Version]) -> Result<End, ListFault> {
        if list.is_empty() {
            return Err(ListFault::Empty);
        }
        if list.len() > MAX_VERSIONS {
            return Err(ListFault::TooMany);
        }
        let mut versions = list.to_vec();
        versions.sort_by_key(|version| std::cmp::Reverse(version.major));
        if versions.iter().any(|version| version.major == 0) {
            return Err(ListFault::MajorZero);
        }
        if versions.windows(2).any(|two| two[0].major == two[1].major) {
            return Err(ListFault::MajorTwice);
        }
        Ok(End {
            class,
            accepts,
            versions,
            session: Session::NoVersion,
        })
    }

    pub fn class(&self) -> u8 {
        self.class
    }

    pub fn accepts(&self) -> u8 {
        self.accepts
    }

    /// From the highest major to the lowest.
    pub fn versions(&self) -> &[Version] {
        &self.versions
    }

    pub fn session(&self) -> Session {
        self.session
    }

    /// Asks the highest major. An open request is dropped.
    pub fn start(&mut self, sid: u32) -> Words {
        self.ask(sid, self.versions[0]).pack()
    }

    /// Receives a message; `sid` is for the request that may be sent next.
    pub fn receive(&mut self, sid: u32, words: Words) -> Received {
        let message = Message::unpack(words);
        match message.subtype {
            _ if !message.is_version_phase() => Received::silent(Rule::Other),
            INFO => self.asked(&message),
            ACK | NACK => self.answered(sid, &message),
            _ => Received::silent(Rule::Other),
        }
    }

    /// A request sent resets the session.
    fn ask(&mut self, sid: u32, version: Version) -> Message {
        self.session = Session::Asked { sid, version };
        Message::version(INFO, sid, self.class, version)
    }

    /// A request received resets the session, whatever it was, and takes the
    /// sender's session id. The answer keeps its session id and class.
    fn asked(&mut self, request: &Message) -> Received {
        self.session = Session::NoVersion;
        let (rule, subtype, version) = self.reply(request.class, request.version);
        if subtype == ACK {
            let sid = request.sid;
            self.session = Session::Agreed { sid, version };
        }
        let answer = Message::version(subtype, request.sid, request.class, version);
        Received::sending(rule, answer)
    }

    /// The rule of a request, and the subtype and version of its answer.
    fn reply(&self, class: u8, asked: Version) -> (Rule, u8, Version) {
        let highest = self.highest_up_to(asked.major);
        let held = highest.filter(|version| version.major == asked.major);
        if class != self.accepts {
            let held = held.is_some();
            return (Rule::WrongClass { held }, NACK, asked);
        }
        if let Some(held) = held {
            let rule = Rule::Acknowledged {
                asked: asked.minor,
                held: held.minor,
            };
            let minor = asked.minor.min(held.minor);
            return (rule, ACK, Version { minor, ..asked });
        }
        match highest {
            Some(lower) => (Rule::ToldLower, NACK, lower),
            None => (Rule::ToldZero, NACK, Version::NONE),
        }
    }

    /// The version held of the highest major at or below this one.
    fn highest_up_to(&self, major: u16) -> Option<Version> {
        let mut held = self.versions.iter().copied();
        held.find(|version| version.major <= major)
    }

    /// The request that is open.
    pub fn request(&self) -> Option<Request> {
        match self.session {
            Session::Asked { sid, version } => Some(Request {
                sid,
                class: self.class,
                version,
            }),
            _ => None,
        }
    }

    fn answered(&mut self, sid: u32, message: &Message) -> Received {
        let Some(request) = self.request() else {
            return Received::silent(Rule::NoneOpen);
        };
        match request.judge(message) {
            Err(faults) => Received::silent(Rule::NotGot(faults)),
            Ok(Answer::Agreed(version)) => self.agree(&request, version),
            Ok(Answer::WrongClass) => self.give_up(Rule::EndedByClass),
            Ok(Answer::NoLower) => self.give_up(Rule::EndedByZero),
            Ok(Answer::Lower(told)) => self.ask_next(sid, told),
        }
    }

    fn agree(&mut self, request: &Request, version: Version) -> Received {
        let sid = request.sid;
        self.session = Session::Agreed { sid, version };
        Received::silent(Rule::Agreed {
            asked: request.version.minor,
            told: version.minor,
        })
    }

    fn give_up(&mut self, rule: Rule) -> Received {
        self.session = Session::Refused;
        Received::silent(rule)
    }

    /// Asks the highest major at or below the one told.
    fn ask_next(&mut self, sid: u32, told: u16) -> Received {
        let Some(version) = self.highest_up_to(told) else {
            return self.give_up(Rule::EndedByNoneLeft);
        };
        let rule = Rule::AskedNext {
            told,
            asked: version.major,
        };
        Received::sending(rule, self.ask(sid, version))
    }
}
