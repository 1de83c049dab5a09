//! The memory reconfiguration service: requests, replies and result records.

use crate::agent::Done;
use crate::block::{Block, Blocks, Pair, PAGE};
use crate::entry::{Answer, Event};
use crate::removal::{Removal, MAX_RECORDS};
use crate::state::State;
use crate::wire::{self, get32, get64, Writer};

pub const CONFIGURE: u32 = 0x4d43;
pub const UNCONFIGURE: u32 = 0x4d55;
pub const UNCONF_STATUS: u32 = 0x4d53;
pub const CANCEL: u32 = 0x4d4e;
pub const QUERY: u32 = 0x4d51;
pub const OK: u32 = 0x6f;
pub const ERROR: u32 = 0x65;

/// Type, argument and request number.
pub const HEADER: usize = 16;
/// A pair of a request: addr and size.
pub const PAIR_BYTES: usize = 16;
/// A result record: addr, size, result, status, string offset.
pub const RESULT_BYTES: usize = 28;
/// A QUERY record: addr, size, permanent bytes, first and last address.
pub const QUERY_BYTES: usize = 40;
/// Where a reply's records begin: after the DS header, the handle and the
/// memory header.
pub const RECORDS_START: usize = wire::DATA_START + HEADER;

/// The result of one record.
#[derive(Clone, Copy, Debug, PartialEq, Eq)]
pub enum Code {
    Ok = 0,
    Failure = 1,
    Blocked = 2,
    Cancelled = 3,
    NoWork = 4,
    Perm = 5,
}

/// One result for each of a request's records, the first `count` of them.
pub type Codes = [Code; MAX_RECORDS];

/// The pairs of a request, as they stand in the message: 1 to 64.
#[derive(Clone, Copy)]
pub(crate) struct Pairs<'a>(&'a [[u8; PAIR_BYTES]]);

impl<'a> Pairs<'a> {
    /// The pairs that follow the header, if they are as the argument says.
    fn read(argument: u32, bytes: &'a [u8]) -> Option<Pairs<'a>> {
        let (pairs, rest) = bytes.as_chunks();
        let whole = rest.is_empty() && pairs.len() == argument as usize;
        (whole && (1..=MAX_RECORDS).contains(&pairs.len())).then_some(Pairs(pairs))
    }

    pub(crate) fn iter(self) -> impl ExactSizeIterator<Item = Pair> + 'a {
        self.0.iter().map(|pair| Pair {
            addr: get64(pair, 0),
            size: get64(pair, 8),
        })
    }
}

/// A request of right form.
pub(crate) enum Request<'a> {
    Configure(Pairs<'a>),
    Unconfigure(Pairs<'a>),
    Query(Pairs<'a>),
    Status,
    Cancel,
}

impl Request<'_> {
    /// The request, if its form is right.
    pub(crate) fn read(data: &[u8]) -> Option<Request<'_>> {
        let (header, rest) = data.split_at_checked(HEADER)?;
        let argument = get32(header, 4);
        let bare = argument == 0 && rest.is_empty();
        match get32(header, 0) {
            CONFIGURE => Pairs::read(argument, rest).map(Request::Configure),
            UNCONFIGURE => Pairs::read(argument, rest).map(Request::Unconfigure),
            QUERY => Pairs::read(argument, rest).map(Request::Query),
            UNCONF_STATUS => bare.then_some(Request::Status),
            CANCEL => bare.then_some(Request::Cancel),
            _ => None,
        }
    }
}

/// Where a reply goes and which request it answers.
pub struct Reply<'a> {
    pub out: &'a mut [u8],
    pub handle: u64,
    pub request: u64,
}

impl Reply<'_> {
    /// Writes both headers for `follow` bytes of records; gives the length of
    /// the whole reply.
    #[inline]
    fn headers(&mut self, memory_type: u32, argument: usize, follow: usize) -> usize {
        let payload = RECORDS_START - wire::HEADER + follow;
        // The argument is at most 64.
        let headers = Writer::message(self.out, wire::DATA, payload)
            .put64(self.handle)
            .put32(memory_type)
            .put32(argument as u32)
            .put64(self.request);
        headers.length() + follow
    }

    /// OK with a result record for each pair; the status is the block's now.
    pub fn results(
        mut self,
        blocks: &Blocks,
        pairs: impl ExactSizeIterator<Item = Pair>,
        codes: &Codes,
    ) -> usize {
        let length = self.headers(OK, pairs.len(), pairs.len() * RESULT_BYTES);
        let records = self.out[RECORDS_START..].chunks_exact_mut(RESULT_BYTES);
        for ((pair, code), record) in pairs.zip(codes).zip(records) {
            let status = match blocks.find(pair).map(|at| blocks.list[at].configured) {
                None => 0,
                Some(false) => 1,
                Some(true) => 2,
            };
            Writer::new(record)
                .put64(pair.addr)
                .put64(pair.size)
                .put32(*code as u32)
                .put32(status)
                .put32(0);
        }
        length
    }

    /// OK with a QUERY record for each pair.
    fn query(mut self, blocks: &Blocks, pairs: Pairs) -> usize {
        let count = pairs.0.len();
        let length = self.headers(OK, count, count * QUERY_BYTES);
        let records = self.out[RECORDS_START..].chunks_exact_mut(QUERY_BYTES);
        for (pair, record) in pairs.iter().zip(records) {
            let named = blocks.find(pair).map(|at| &blocks.list[at]);
            let [bytes, first, last] = permanent(pair, named);
            Writer::new(record)
                .put64(pair.addr)
                .put64(pair.size)
                .put64(bytes)
                .put64(first)
                .put64(last);
        }
        length
    }

    /// STATUS: no record if nothing is outstanding, else total and collected.
    fn status(mut self, removal: Option<&Removal>) -> usize {
        let Some(removal) = removal else {
            return self.headers(OK, 0, 0);
        };
        let (total, collected) = match removal.current() {
            Some(pair) => (pair.size, removal.collected * PAGE),
            None => (0, 0),
        };
        let length = self.headers(OK, 1, 16);
        Writer::new(&mut self.out[RECORDS_START..])
            .put64(total)
            .put64(collected);
        length
    }
}

/// Permanent bytes, first and last permanent address; an unknown block
/// counts as wholly permanent.
fn permanent(pair: Pair, named: Option<&Block>) -> [u64; 3] {
    let (first, bytes) = match named {
        Some(block) => (block.base + block.first * PAGE, block.permanent * PAGE),
        None => (pair.addr, pair.size),
    };
    if bytes == 0 {
        return [0, 0, 0];
    }
    [bytes, first, first.wrapping_add(bytes - 1)]
}

/// The number of a memory message, 0 if it has not the whole header.
pub(crate) fn request_number(data: &[u8]) -> u64 {
    match data.len() {
        HEADER.. => get64(data, 8),
        _ => 0,
    }
}

/// Answers data that reached service 0 on channel `at` under `handle`: ERROR
/// if its form is not right or its number does not rise.
pub fn answer(state: &mut State, at: usize, handle: u64, data: &[u8], out: &mut [u8]) -> Done {
    let request = request_number(data);
    let mut reply = Reply {
        out,
        handle,
        request,
    };
    match Request::read(data) {
        Some(good) if rises(&mut state.highest[at], request) => {
            good.answer(state, at as u64, reply)
        }
        _ => {
            let length = reply.headers(ERROR, 0, 0);
            (answered(Answer::Error, request), length)
        }
    }
}

/// Whether the number of a request of right form is above the highest of its
/// registration, which it is from then on.
fn rises(highest: &mut Option<u64>, number: u64) -> bool {
    let above = highest.is_none_or(|highest| number > highest);
    if above {
        *highest = Some(number);
    }
    above
}

/// The entry of an answer that changed nothing.
fn answered(answer: Answer, request: u64) -> Event {
    Event::Answered { answer, request }
}

impl Request<'_> {
    fn answer(self, state: &mut State, channel: u64, mut reply: Reply) -> Done {
        let request = reply.request;
        let plain = answered(Answer::Plain, request);
        match self {
            Request::Configure(pairs) | Request::Unconfigure(pairs) if state.removal.is_some() => {
                let codes = [Code::Blocked; MAX_RECORDS];
                let length = reply.results(&state.blocks, pairs.iter(), &codes);
                (answered(Answer::Blocked, request), length)
            }
            Request::Configure(pairs) => configure(&mut state.blocks, pairs, reply),
            Request::Unconfigure(pairs) => {
                let begun = Removal::begin(channel, reply.handle, request, pairs.iter());
                let count = begun.count;
                state.removal = Some(begun);
                (Event::Begun { count, request }, 0)
            }
            Request::Query(pairs) => (plain, reply.query(&state.blocks, pairs)),
            Request::Status => (plain, reply.status(state.removal.as_ref())),
            Request::Cancel => {
                let marked = state.removal.as_mut().is_some_and(Removal::mark);
                let event = match marked {
                    true => Event::Cancelled { request },
                    false => plain,
                };
                (event, reply.headers(OK, 0, 0))
            }
        }
    }
}

/// CONFIGURE with nothing outstanding: in order, until a record is unknown.
fn configure(blocks: &mut Blocks, pairs: Pairs, reply: Reply) -> Done {
    let mut codes = [Code::Failure; MAX_RECORDS];
    let mut changed = 0;
    for (pair, code) in pairs.iter().zip(&mut codes) {
        let Some(at) = blocks.find(pair) else {
            break;
        };
        if blocks.list[at].configured {
            *code = Code::NoWork;
        } else {
            blocks.list[at].configured = true;
            changed |= 1 << at;
            *code = Code::Ok;
        }
    }
    let event = match changed {
        0 => answered(Answer::Plain, reply.request),
        blocks => Event::Configured { blocks },
    };
    (event, reply.results(blocks, pairs.iter(), &codes))
}
