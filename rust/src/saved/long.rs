//! One long saved file: what the agent drains while it does the same round of
//! calls again and again.

use crate::block::PAGE;
use crate::reader::{ENTRY, WORD};
use crate::state::{JOURNAL_WORDS, LAST_NUMBER, OUTPUT_BYTES, SLOTS, TOP_BIT};
use crate::{build, close, drain, memory, offer, receive, setup, wire, withdraw, work};
use crate::{permit, take};
use crate::{Pair, State};
use std::io::{self, Write};

/// Two blocks of 4 and 2 pages, configured, and one with a permanent page.
const BLOCKS: [u64; 15] = [
    0x1000_0000,
    4,
    0,
    0,
    1,
    0x2000_0000,
    2,
    0,
    0,
    1,
    0x3000_0000,
    3,
    1,
    1,
    1,
];

/// One id, version 1.0.
const ID: &[u8] = b"sp\0";
const IDS: [u64; 7] = [1, 0, 3, 0x7370 << 48, 0, 0, 0];

const fn pair(block: usize) -> Pair {
    Pair {
        addr: BLOCKS[5 * block],
        size: BLOCKS[5 * block + 1] * PAGE,
    }
}

/// The most entries that a file can have.
pub const MAX_ENTRIES: u64 = LAST_NUMBER;

struct Agent<W> {
    state: State,
    journal: [u64; JOURNAL_WORDS],
    out: [u8; OUTPUT_BYTES],
    entries: u64,
    file: W,
}

/// Writes a file of so many entries, at most `MAX_ENTRIES`.
pub fn write_long(entries: u64, mut file: impl Write) -> io::Result<()> {
    file.write_all(&(BLOCKS.len() as u64).to_be_bytes())?;
    for word in BLOCKS {
        file.write_all(&word.to_be_bytes())?;
    }
    if entries == 0 {
        return file.flush();
    }
    let mut journal = [0; JOURNAL_WORDS];
    let mut agent = Agent {
        state: setup(&BLOCKS, &[], &IDS, &mut journal).expect("good lists"),
        journal,
        out: [0; OUTPUT_BYTES],
        entries,
        file,
    };
    agent.save()?;
    for channel in (0..4).cycle() {
        if agent.state.last == entries {
            break;
        }
        agent.round(channel)?;
    }
    agent.file.flush()
}

/// A call of the agent, lent its journal and output, unless there are enough
/// entries.
macro_rules! call {
    ($agent:expr, $call:ident $(, $argument:expr)*) => {{
        let agent = &mut *$agent;
        if agent.state.last < agent.entries {
            let called = $call(&mut agent.state $(, $argument)*, &mut agent.journal, &mut agent.out);
            called.expect("an accepted call");
            agent.save()?;
        }
    }};
}

impl<W: Write> Agent<W> {
    /// Drains into the file when the journal is full or all is done.
    fn save(&mut self) -> io::Result<()> {
        let done = self.state.last == self.entries;
        if self.state.held < SLOTS && !done {
            return Ok(());
        }
        let mut run = [0; JOURNAL_WORDS];
        let count = drain(&mut self.state, &self.journal, &mut run).expect("a sound state");
        let mut bytes = [0; JOURNAL_WORDS * WORD];
        for (bytes, word) in bytes.chunks_exact_mut(WORD).zip(run) {
            bytes.copy_from_slice(&word.to_be_bytes());
        }
        self.file.write_all(&bytes[..count * ENTRY])
    }

    /// Offers a service; gives its handle.
    fn offer(&mut self, channel: u64, service: u64) -> io::Result<u64> {
        call!(self, offer, channel, service);
        Ok(TOP_BIT | self.state.last)
    }

    fn receive(&mut self, channel: u64, message: &[u8]) -> io::Result<()> {
        call!(self, receive, channel, message);
        Ok(())
    }

    fn register(&mut self, channel: u64, service: u64) -> io::Result<u64> {
        let handle = self.offer(channel, service)?;
        self.receive(channel, &build::reg_ack(handle, 0))?;
        Ok(handle)
    }

    /// Everything that a channel can see, from its INIT_REQ to its end: an
    /// entry of each kind of 01 that is written still, and of those of orders
    /// and of the peer, most of them answers to QUERY.
    fn round(&mut self, channel: u64) -> io::Result<()> {
        self.receive(channel, &build::init_req(1, 0))?;
        let panic = self.register(channel, 3)?;
        call!(self, permit, 3, true);
        self.receive(channel, &build::data(panic, &build::panic(1)))?;
        call!(self, take);
        self.receive(channel, &build::reg_req(7, 1, 0, ID))?;
        self.receive(channel, &build::data(7, b"hello"))?;
        self.receive(channel, &build::of_handle(wire::UNREG, 7))?;
        let refused = self.offer(channel, 1)?;
        self.receive(channel, &build::reg_nack(refused, 1, 0))?;
        self.receive(channel, &build::data(refused, b"late"))?;
        self.receive(channel, &build::nack(refused, 3))?;
        let handle = self.register(channel, 0)?;
        for number in 0..15 {
            let query = build::request(memory::QUERY, number, &[pair(0), pair(2)]);
            self.receive(channel, &build::data(handle, &query))?;
        }
        self.removals(channel, handle)?;
        call!(self, withdraw, channel, 3);
        self.receive(channel, &build::of_handle(wire::UNREG, handle))?;
        if channel.is_multiple_of(2) {
            call!(self, close, channel);
            return Ok(());
        }
        self.receive(channel, &build::init_req(3, 0))
    }

    /// A removal that is cancelled, one that is not, and CONFIGURE.
    fn removals(&mut self, channel: u64, handle: u64) -> io::Result<()> {
        let request = |memory_type, number, pairs: &[Pair]| {
            build::data(handle, &build::request(memory_type, number, pairs))
        };
        let both = [pair(0), pair(1)];
        self.receive(channel, &request(memory::UNCONFIGURE, 20, &both))?;
        call!(self, work, 1);
        self.receive(channel, &request(memory::CANCEL, 21, &[]))?;
        call!(self, work, 1);
        self.receive(channel, &request(memory::UNCONFIGURE, 22, &both))?;
        for budget in [1, 2, 1, 2, 1] {
            call!(self, work, budget);
        }
        self.receive(channel, &request(memory::CONFIGURE, 23, &both))
    }
}
