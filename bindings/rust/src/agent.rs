//! The agent's calls over a state, a journal and an output that it owns.

use crate::entry::Entries;
use crate::lists::{words, Block, Device, Id};
use crate::raw::{self, Words, JOURNAL_WORDS, OUTPUT_BYTES, STATE_WORDS};
use crate::refusal::Refusal;

/// A service of the agent's table.
#[derive(Clone, Copy, Debug, PartialEq, Eq)]
pub enum Service {
    /// `dr-mem`.
    Memory = 0,
    /// `dr-vio`.
    Devices = 1,
    /// `domain-shutdown`.
    Shutdown = 2,
    /// `domain-panic`.
    Panic = 3,
}

/// An order that a permitted request left for the host.
#[derive(Clone, Copy, Debug, PartialEq, Eq)]
pub enum Order {
    /// Shut down.
    Shutdown {
        /// In so many milliseconds.
        delay: u64,
    },
    /// Panic.
    Panic,
}

/// What a work step did.
#[derive(Clone, Copy, Debug, PartialEq, Eq)]
pub struct Worked<'a> {
    /// The pages that it moved.
    pub pages: u64,
    /// The removal's reply, empty where there is none yet.
    pub reply: &'a [u8],
}

/// An agent that was set up: 19,976 bytes, and no pointer among them. A clone is
/// an agent of its own: a host that saves entries can drain a clone, save, and
/// then put it in the agent's place, so that a failed write loses none.
#[derive(Clone)]
pub struct Agent {
    pub(crate) state: Words,
    pub(crate) journal: [u64; JOURNAL_WORDS],
    pub(crate) out: [u8; OUTPUT_BYTES],
}

impl Agent {
    /// An agent with up to 64 blocks, 32 devices and 16 ids, all channels closed,
    /// and the edition mark in its journal; refused with [`Refusal::List`].
    pub fn setup(blocks: &[Block], devices: &[Device], ids: &[Id]) -> Result<Agent, Refusal> {
        let mut agent = Agent {
            state: [0; STATE_WORDS],
            journal: [0; JOURNAL_WORDS],
            out: [0; OUTPUT_BYTES],
        };
        let Agent { state, journal, .. } = &mut agent;
        let refusal = raw::setup(state, words(blocks), words(devices), words(ids), journal);
        Refusal::of(refusal)?;
        Ok(agent)
    }

    /// Receives a message on a channel; gives the reply, empty where there is none.
    #[inline]
    pub fn receive(&mut self, channel: usize, message: &[u8]) -> Result<&[u8], Refusal> {
        let Agent {
            state,
            journal,
            out,
        } = self;
        let answer = raw::receive(state, channel as u64, message, journal, out);
        self.reply(answer)
    }

    /// Offers a service to a channel's other end; gives the REG_REQ to send.
    pub fn offer(&mut self, channel: usize, service: Service) -> Result<&[u8], Refusal> {
        let Agent {
            state,
            journal,
            out,
        } = self;
        let answer = raw::offer(state, channel as u64, service as u64, journal, out);
        self.reply(answer)
    }

    /// Takes a service back; gives the UNREG to send.
    pub fn withdraw(&mut self, channel: usize, service: Service) -> Result<&[u8], Refusal> {
        let Agent {
            state,
            journal,
            out,
        } = self;
        let answer = raw::withdraw(state, channel as u64, service as u64, journal, out);
        self.reply(answer)
    }

    /// Closes a channel.
    pub fn close(&mut self, channel: usize) -> Result<(), Refusal> {
        let Agent {
            state,
            journal,
            out,
        } = self;
        Refusal::of(raw::close(state, channel as u64, journal, out).refusal)
    }

    /// Does one step of the outstanding removal, with a budget of 1 to 65,535 pages.
    pub fn work(&mut self, budget: u64) -> Result<Worked<'_>, Refusal> {
        let Agent {
            state,
            journal,
            out,
        } = self;
        let worked = raw::work(state, budget, journal, out);
        Refusal::of(worked.refusal)?;
        Ok(Worked {
            pages: worked.pages,
            reply: &self.out[..worked.length],
        })
    }

    /// Sets whether requests to shut down or to panic are permitted. They are
    /// denied until set.
    pub fn permit(&mut self, service: Service, permitted: bool) -> Result<(), Refusal> {
        let Agent {
            state,
            journal,
            out,
        } = self;
        Refusal::of(raw::permit(state, service as u64, permitted.into(), journal, out).refusal)
    }

    /// Takes the order that a permitted request left; refused with
    /// [`Refusal::NotAllowed`] where there is none.
    pub fn take(&mut self) -> Result<Order, Refusal> {
        let Agent {
            state,
            journal,
            out,
        } = self;
        let taken = raw::take(state, journal, out);
        Refusal::of(taken.refusal)?;
        Ok(match taken.order {
            1 => Order::Shutdown { delay: taken.delay },
            // an accepted take gives 1 or 2, which is proved
            _ => Order::Panic,
        })
    }

    /// All entries that are held, oldest first. The agent forgets them.
    pub fn drain(&mut self) -> Result<Entries, Refusal> {
        let mut run = [0; JOURNAL_WORDS];
        let count = self.drain_words(&mut run)?;
        Ok(Entries {
            run,
            next: 0,
            count,
        })
    }

    /// Copies the oldest entries to the start of a run, two words each, as many
    /// whole ones as are held and fit; gives their number. The agent forgets them.
    #[inline]
    pub fn drain_words(&mut self, run: &mut [u64]) -> Result<usize, Refusal> {
        let drained = raw::drain(&mut self.state, &self.journal, run);
        Refusal::of(drained.refusal)?;
        Ok(drained.entries)
    }

    /// The host's own part of a data message that was received: from byte 16 on
    /// if it is for a service that the other end has registered, else empty.
    pub fn show<'m>(&self, channel: usize, message: &'m [u8]) -> &'m [u8] {
        match raw::show(&self.state, channel as u64, message) {
            0 => &[],
            length => &message[16..16 + length],
        }
    }

    /// The reply at the start of the output.
    #[inline]
    fn reply(&self, answer: raw::Answer) -> Result<&[u8], Refusal> {
        Refusal::of(answer.refusal)?;
        Ok(&self.out[..answer.length])
    }
}
