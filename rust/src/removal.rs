//! The one outstanding removal, and the call work.

use crate::block::{Blocks, Pair};
use crate::entry::{record, Event};
use crate::memory::{Code, Codes, Reply};
use crate::state::{refusal, Service, State};

/// A removal has 1 to 64 records.
pub const MAX_RECORDS: usize = 64;
/// A work step's budget is 1 to 65,535 pages.
pub const MAX_BUDGET: u64 = 65_535;

/// How a record was settled.
#[derive(Clone, Copy, Debug, Default, PartialEq, Eq)]
pub enum Settled {
    #[default]
    Ok,
    NoWork,
}

impl Settled {
    fn code(self) -> Code {
        match self {
            Settled::Ok => Code::Ok,
            Settled::NoWork => Code::NoWork,
        }
    }
}

/// An UNCONFIGURE that was begun and has not ended: the first `count` of
/// `records`, of which the first `position` are settled.
#[derive(Clone, Copy, Debug, PartialEq, Eq)]
pub struct Removal {
    pub channel: u64,
    pub handle: u64,
    pub request: u64,
    pub count: usize,
    pub records: [Pair; MAX_RECORDS],
    pub position: usize,
    pub collected: u64,
    pub cancelled: bool,
    pub settled: [Settled; MAX_RECORDS],
}

/// What work gives: pages moved and the length of the reply.
#[derive(Clone, Copy, Debug, Default, PartialEq, Eq)]
pub struct Worked {
    pub pages: u64,
    pub length: usize,
}

/// The one thing that a work step does.
enum Step {
    End(Code),
    SettleNoWork { block: usize },
    Collect { block: usize },
}

impl Removal {
    /// A removal of 1 to 64 pairs, just begun.
    pub fn begin(
        channel: u64,
        handle: u64,
        request: u64,
        pairs: impl ExactSizeIterator<Item = Pair>,
    ) -> Removal {
        let count = pairs.len();
        let mut records = [Pair::default(); MAX_RECORDS];
        for (record, pair) in records.iter_mut().zip(pairs) {
            *record = pair;
        }
        Removal {
            channel,
            handle,
            request,
            count,
            records,
            position: 0,
            collected: 0,
            cancelled: false,
            settled: [Settled::Ok; MAX_RECORDS],
        }
    }

    /// The record at the position; none once all are settled.
    pub fn current(&self) -> Option<Pair> {
        self.records[..self.count].get(self.position).copied()
    }

    /// CANCEL: false if it was marked already; then nothing changes.
    pub fn mark(&mut self) -> bool {
        if self.cancelled {
            return false;
        }
        self.cancelled = true;
        self.collected = 0;
        true
    }

    fn next(&self, blocks: &Blocks) -> Step {
        if self.cancelled {
            return Step::End(Code::Cancelled);
        }
        let Some(pair) = self.current() else {
            return Step::End(Code::Ok);
        };
        let Some(block) = blocks.find(pair) else {
            return Step::End(Code::Failure);
        };
        if blocks.list[block].permanent > 0 {
            Step::End(Code::Perm)
        } else if blocks.list[block].configured {
            Step::Collect { block }
        } else {
            Step::SettleNoWork { block }
        }
    }

    /// Settles the record at the position and steps on.
    fn settle(&mut self, settled: Settled, pages: u64, block: usize) -> Event {
        let record = self.position;
        self.settled[record] = settled;
        self.position += 1;
        self.collected = 0;
        Event::Settled {
            record,
            code: settled.code(),
            pages: pages as u16,
            block,
        }
    }

    /// Collects up to `budget` pages of the block; gives the pages moved.
    fn collect(&mut self, blocks: &mut Blocks, block: usize, budget: u64) -> (Event, u64) {
        let named = &mut blocks.list[block];
        let remaining = named.pages - self.collected;
        let pages = budget.min(remaining);
        if pages < remaining {
            self.collected += pages;
            let event = Event::Collected {
                pages: pages as u16,
            };
            return (event, pages);
        }
        named.configured = false;
        (self.settle(Settled::Ok, pages, block), pages)
    }

    /// The results at the end: the settled ones; from the position on
    /// CANCELLED, or the failing record's `code` and FAILURE after it.
    fn codes(&self, code: Code) -> Codes {
        let after = match code {
            Code::Cancelled => Code::Cancelled,
            _ => Code::Failure,
        };
        let mut codes = [after; MAX_RECORDS];
        for (code, settled) in codes.iter_mut().zip(&self.settled[..self.position]) {
            *code = settled.code();
        }
        if self.position < self.count {
            codes[self.position] = code;
        }
        codes
    }

    /// Whether its handle is still registered on its channel for service 0.
    fn has_its_handle(&self, state: &State) -> bool {
        let service = state.channels[self.channel as usize].services[0];
        matches!(service, Service::Registered { handle, .. } if handle == self.handle)
    }

    /// Writes the late reply, if its handle is still there; gives its length.
    fn reply(&self, state: &State, code: Code, out: &mut [u8]) -> usize {
        if !self.has_its_handle(state) {
            return 0;
        }
        let reply = Reply {
            out,
            handle: self.handle,
            request: self.request,
        };
        let records = self.records[..self.count].iter().copied();
        reply.results(&state.blocks, records, &self.codes(code))
    }
}

/// Writes the late reply of the outstanding removal, where it stands.
fn reply(state: &State, code: Code, out: &mut [u8]) -> usize {
    let removal = state.removal.as_ref();
    removal.map_or(0, |removal| removal.reply(state, code, out))
}

/// Does one step of the outstanding removal.
pub fn work(
    state: &mut State,
    budget: u64,
    journal: &mut [u64],
    out: &mut [u8],
) -> Result<Worked, u64> {
    state.admit(journal, out, (1..=MAX_BUDGET).contains(&budget))?;
    let removal = state.removal.as_mut().ok_or(refusal::NOT_NOW)?;
    let channel = removal.channel;
    let mut worked = Worked::default();
    let event = match removal.next(&state.blocks) {
        Step::Collect { block } => {
            let (event, pages) = removal.collect(&mut state.blocks, block, budget);
            worked.pages = pages;
            event
        }
        Step::SettleNoWork { block } => removal.settle(Settled::NoWork, 0, block),
        Step::End(code) => {
            let request = removal.request;
            worked.length = reply(state, code, out);
            state.removal = None;
            Event::End {
                code,
                replied: worked.length > 0,
                request,
            }
        }
    };
    record(state, journal, channel, event);
    Ok(worked)
}
