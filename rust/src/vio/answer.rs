//! What an answer means for the request that is open, by the rules that the
//! other end follows.

use super::words::{Message, ACK};
use super::Version;

/// The request that an end has open.
#[derive(Clone, Copy, Debug, PartialEq, Eq)]
pub struct Request {
    pub sid: u32,
    pub class: u8,
    pub version: Version,
}

/// What an answer that the request could get says.
#[derive(Clone, Copy, Debug, PartialEq, Eq)]
pub enum Answer {
    /// This version is agreed.
    Agreed(Version),
    /// The parameters unchanged: the other end does not accept the class.
    WrongClass,
    /// 0 and 0: the other end holds no lower major.
    NoLower,
    /// The next lower major that the other end holds.
    Lower(u16),
}

/// A reason why the request could not get an answer.
#[derive(Clone, Copy, Debug, PartialEq, Eq)]
pub enum Fault {
    Sid,
    Class,
    /// An acknowledged major that was not asked.
    Major,
    /// An acknowledged minor above the one asked.
    MinorAbove,
    /// A refusal that tells a major above the one asked.
    ToldAbove,
    /// A refusal that tells the major asked, with another minor.
    ToldAsked,
    /// A refusal that tells 0 with a minor other than 0.
    ZeroWithMinor,
}

impl Request {
    /// What an ACK or a NACK says, or all reasons why it could not be got.
    pub fn judge(&self, message: &Message) -> Result<Answer, Vec<Fault>> {
        let faults = self.faults(message);
        if faults.is_empty() {
            Ok(self.says(message))
        } else {
            Err(faults)
        }
    }

    /// An ACK has the major asked and no higher minor. A NACK has the
    /// parameters unchanged, a lower major with any minor, or 0 and 0.
    fn faults(&self, message: &Message) -> Vec<Fault> {
        let (asked, told) = (self.version, message.version);
        let ack = message.subtype == ACK;
        let changed_nack = !ack && told != asked;
        let tests = [
            (Fault::Sid, message.sid != self.sid),
            (Fault::Class, message.class != self.class),
            (Fault::Major, ack && told.major != asked.major),
            (Fault::MinorAbove, ack && told.minor > asked.minor),
            (Fault::ToldAbove, changed_nack && told.major > asked.major),
            (Fault::ToldAsked, changed_nack && told.major == asked.major),
            (
                Fault::ZeroWithMinor,
                changed_nack && told.major == 0 && told.minor != 0,
            ),
        ];
        let found = tests.into_iter().filter(|(_, found)| *found);
        found.map(|(fault, _)| fault).collect()
    }

    /// What an answer without a fault says.
    fn says(&self, message: &Message) -> Answer {
        match message.version {
            told if message.subtype == ACK => Answer::Agreed(told),
            told if told == self.version => Answer::WrongClass,
            Version { major: 0, .. } => Answer::NoLower,
            told => Answer::Lower(told.major),
        }
    }
}
