//! Two ends, and the answer to each line.

use super::{refusal, Call, End, ListFault, Received, Session, Words};
use crate::lines::Program;
use std::io::Write;

/// The ends that were set up.
#[derive(Default)]
pub struct Host {
    ends: [Option<End>; 2],
}

/// What a line did. No end: refused by 8.
#[derive(Clone, Debug, PartialEq, Eq)]
pub enum Done {
    End(Result<(), ListFault>),
    Start(Option<Words>),
    Receive(Option<Received>),
    State(usize, Session),
}

impl Program for Host {
    type Call = Call;

    fn answer(&mut self, call: &Call, answer: &mut Vec<u8>) {
        let done = self.perform(call);
        // Writing to a vector does not fail.
        let _ = writeln!(answer, "{}", text(&done));
    }
}

impl Host {
    pub fn end(&self, number: usize) -> Option<&End> {
        self.ends[number].as_ref()
    }

    pub fn perform(&mut self, call: &Call) -> Done {
        match *call {
            Call::End(number, class, accepts, ref versions) => {
                let made = End::new(class, accepts, versions);
                let done = made.as_ref().map(|_| ()).map_err(|fault| *fault);
                self.ends[number] = made.ok();
                Done::End(done)
            }
            Call::Start(number, sid) => {
                Done::Start(self.ends[number].as_mut().map(|end| end.start(sid)))
            }
            Call::Receive(number, sid, words) => {
                let end = self.ends[number].as_mut();
                Done::Receive(end.map(|end| end.receive(sid, words)))
            }
            Call::State(number) => {
                let session = self.end(number).map_or(Session::NoVersion, End::session);
                Done::State(number, session)
            }
        }
    }
}

/// The line that is written.
fn text(done: &Done) -> String {
    match done {
        Done::End(Ok(())) => "end accepted".into(),
        Done::End(Err(_)) => format!("end refused {}", refusal::VERSIONS),
        Done::Start(None) => format!("start refused {}", refusal::NO_END),
        Done::Start(Some(words)) => sent("start", words),
        Done::Receive(None) => format!("receive refused {}", refusal::NO_END),
        Done::Receive(Some(Received { sent: None, .. })) => "receive".into(),
        Done::Receive(Some(Received {
            sent: Some(words), ..
        })) => sent("receive", words),
        Done::State(number, session) => format!("end {number} {}", state(session)),
    }
}

fn sent(name: &str, [first, second]: &Words) -> String {
    format!("{name} {first:016x} {second:016x}")
}

fn state(session: &Session) -> String {
    match session {
        Session::NoVersion => "no version".into(),
        Session::Asked { version, .. } => format!("asked {} {}", version.major, version.minor),
        Session::Agreed { sid, version } => {
            let (major, minor) = (version.major, version.minor);
            format!("agreed {major} {minor} session {sid}")
        }
        Session::Refused => "refused".into(),
    }
}
