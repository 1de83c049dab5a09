//! Nanoseconds a call of the proved agent beside the independent Rust agent:
//! one run, the same lists of calls, optimised builds. No buffer is cleared
//! between calls. A round makes a batch of calls from a saved state, which is
//! copied back outside the time taken; the two agents take turns, and the
//! fastest round of each counts.

mod burst;
mod devices;
mod independent_agent;
mod orders;
mod peers;
mod pieces;
mod profile;
mod proved_agent;

use devices::Devices;
use independent_agent::Independent;
use peers::Peers;
use proved_agent::Proved;
use std::hint::black_box;
use std::time::Instant;

const ROUNDS: usize = 4000;
const PAGE: u64 = 8192;
const BLOCK_BYTES: u64 = 1 << 33;
const QUERY: u32 = 0x4d51;
const UNCONFIGURE: u32 = 0x4d55;
const BATCH: usize = 48;
/// Our handles have the top bit over the offer's entry number; on channel 0
/// those of `dr-mem`, `dr-vio` and `domain-shutdown`.
const TOP_BIT: u64 = 1 << 63;
const MEMORY: u64 = TOP_BIT | 3;
const VIO: u64 = TOP_BIT | 5;
const SHUTDOWN: u64 = TOP_BIT | 7;
/// The least output that a call must be lent.
const OUTPUT: usize = 2_592;

/// The calls that are timed, and those that lead to them.
pub trait Agent {
    type State: Copy;
    type Front: Default;
    fn setup(
        blocks: &[u64],
        devices: &[u64],
        ids: &[u64],
        journal: &mut [u64],
    ) -> Result<Self::State, u64>;
    fn receive(
        state: &mut Self::State,
        channel: u64,
        message: &[u8],
        journal: &mut [u64],
        out: &mut [u8],
    ) -> Result<usize, u64>;
    fn offer(
        state: &mut Self::State,
        channel: u64,
        service: u64,
        journal: &mut [u64],
        out: &mut [u8],
    ) -> Result<usize, u64>;
    fn work(
        state: &mut Self::State,
        budget: u64,
        journal: &mut [u64],
        out: &mut [u8],
    ) -> Result<(u64, usize), u64>;
    /// Permits a service.
    fn permit(
        state: &mut Self::State,
        service: u64,
        journal: &mut [u64],
        out: &mut [u8],
    ) -> Result<usize, u64>;
    /// Takes the order; gives its delay.
    fn take(state: &mut Self::State, journal: &mut [u64], out: &mut [u8]) -> Result<u64, u64>;
    fn drain(state: &mut Self::State, journal: &[u64], run: &mut [u64]) -> Result<usize, u64>;
    /// Offers a piece of a channel's stream; gives how many bytes were taken, and
    /// whether a message was given to the agent.
    fn piece(
        front: &mut Self::Front,
        state: &mut Self::State,
        channel: u64,
        bytes: &[u8],
        journal: &mut [u64],
        out: &mut [u8],
    ) -> Result<(usize, bool), u64>;
}

/// A state and the journal and output that its calls are lent.
struct Host<A: Agent> {
    state: A::State,
    journal: [u64; 128],
    out: [u8; OUTPUT],
    run: [u64; 128],
}

fn ds_message(ds_type: u32, payload: &[u8]) -> Vec<u8> {
    let mut message = ds_type.to_be_bytes().to_vec();
    message.extend((payload.len() as u32).to_be_bytes());
    message.extend(payload);
    message
}

/// A memory request, with its number, of `count` records over `blocks` blocks: for every
/// `blocks / count`-th block; or for each block, and then for addresses in
/// them, which name no block.
fn request(memory_type: u32, number: u64, count: u64, blocks: u64, handle: u64) -> Vec<u8> {
    let mut payload = handle.to_be_bytes().to_vec();
    payload.extend(memory_type.to_be_bytes());
    payload.extend((count as u32).to_be_bytes());
    payload.extend(number.to_be_bytes());
    for record in 0..count {
        let (block, pages) = if count <= blocks {
            ((record + 1) * (blocks / count) - 1, 0)
        } else {
            (record % blocks, record / blocks)
        };
        payload.extend((block * BLOCK_BYTES + pages * PAGE).to_be_bytes());
        payload.extend(BLOCK_BYTES.to_be_bytes());
    }
    ds_message(9, &payload)
}

impl<A: Agent> Host<A> {
    /// `blocks` configured blocks of 1,048,576 pages, one page of each permanent
    /// but for the last; `channels` channels with four services registered each.
    fn new(blocks: u64, channels: u64, devices: Devices, peers: Peers) -> Self {
        let mut list = Vec::new();
        for block in 0..blocks {
            let permanent = u64::from(block + 1 < blocks);
            list.extend([block * BLOCK_BYTES, 1 << 20, 0, permanent, 1]);
        }
        let mut journal = [0; 128];
        let state = A::setup(&list, &devices.words(), &peers.words(), &mut journal);
        let mut host = Host {
            state: state.expect("the lists are accepted"),
            journal,
            out: [0; OUTPUT],
            run: [0; 128],
        };
        for channel in 0..channels {
            host.register(channel);
        }
        host.drain_all();
        for registration in 0..peers.registrations {
            let channel = registration / 8;
            if channel >= channels && registration % 8 == 0 {
                host.receive(channel, &ds_message(0, &[0, 1, 0, 0]));
            }
            host.receive(channel, &peers::reg_req(registration % 8, registration));
        }
        host.drain_all();
        host
    }

    /// INIT_REQ 1.0, then each service offered and acknowledged.
    fn register(&mut self, channel: u64) {
        self.receive(channel, &ds_message(0, &[0, 1, 0, 0]));
        for service in 0..4 {
            let length = A::offer(
                &mut self.state,
                channel,
                service,
                &mut self.journal,
                &mut self.out,
            );
            length.expect("the offer is accepted");
            let mut payload = self.out[8..16].to_vec();
            payload.extend([0, 0]);
            self.receive(channel, &ds_message(4, &payload));
        }
    }

    fn receive(&mut self, channel: u64, message: &[u8]) {
        let length = A::receive(
            &mut self.state,
            channel,
            message,
            &mut self.journal,
            &mut self.out,
        );
        black_box(length).expect("the message is accepted");
    }

    fn work(&mut self) {
        let worked = A::work(&mut self.state, 1, &mut self.journal, &mut self.out);
        black_box(worked).expect("the step is accepted");
    }

    fn refused_work(&mut self) {
        let refused = A::work(&mut self.state, 0, &mut self.journal, &mut self.out);
        assert_eq!(black_box(refused), Err(3));
    }

    fn permit(&mut self) {
        let service = orders::SERVICE;
        let length = A::permit(&mut self.state, service, &mut self.journal, &mut self.out);
        black_box(length).expect("the service is permitted");
    }

    fn take(&mut self) {
        let delay = A::take(&mut self.state, &mut self.journal, &mut self.out);
        black_box(delay).expect("an order is taken");
    }

    fn drain(&mut self, words: usize) {
        let drained = A::drain(&mut self.state, &self.journal, &mut self.run[..words]);
        black_box(drained).expect("the drain is accepted");
    }

    fn drain_all(&mut self) {
        self.drain(128);
    }

    /// Drains all entries of a copy of the state.
    fn drain_copy(&mut self, copy: &mut A::State) {
        let drained = A::drain(copy, &self.journal, &mut self.run);
        black_box(drained).expect("the drain is accepted");
    }

    /// What the two agents must agree on after a batch.
    fn seen(&self) -> (Vec<u64>, Vec<u8>, Vec<u64>) {
        (self.journal.to_vec(), self.out.to_vec(), self.run.to_vec())
    }
}

/// A case: the blocks, the channels that are ready, the devices, the peer's
/// ids and registrations, what comes before the calls, and the calls of a batch.
struct Case {
    name: String,
    blocks: u64,
    channels: u64,
    devices: Devices,
    peers: Peers,
    prepare: Prepare,
    calls: Calls,
}

enum Prepare {
    Nothing,
    /// A removal of the last block begins.
    Removal,
    /// 64 entries are held.
    Full,
}

enum Calls {
    Query(u64),
    /// Requests of the last device: STATUS, UNCONFIGURE, STATUS, CONFIGURE, and
    /// again.
    Device,
    /// Shutdown requests that are denied.
    Denied,
    /// Permit, a shutdown request that succeeds, and take, in turn.
    Orders,
    /// REG_REQ and UNREG of the peer in turn.
    Peer,
    Work,
    /// Work steps with no budget, refused by 3: soundness alone.
    Refused,
    DrainOne,
    DrainFull,
}

impl Case {
    fn host<A: Agent>(&self) -> Host<A> {
        let mut host = Host::<A>::new(self.blocks, self.channels, self.devices, self.peers);
        match self.prepare {
            Prepare::Nothing => {}
            Prepare::Removal => host.receive(0, &request(UNCONFIGURE, 1, 1, self.blocks, MEMORY)),
            Prepare::Full => {
                for number in 0..64 {
                    host.receive(0, &request(QUERY, number, 1, self.blocks, MEMORY));
                }
            }
        }
        host
    }

    /// One batch of calls, by messages whose numbers rise. A drain of all
    /// entries has a state of its own each time, one of the copies.
    fn batch<A: Agent>(&self, host: &mut Host<A>, messages: &[Vec<u8>], copies: &mut [A::State]) {
        for copy in copies {
            host.drain_copy(copy);
        }
        for (number, message) in messages.iter().enumerate() {
            match self.calls {
                Calls::Orders if number % 3 == 0 => host.permit(),
                Calls::Orders if number % 3 == 2 => host.take(),
                Calls::Work => host.work(),
                Calls::Refused => host.refused_work(),
                Calls::DrainOne => host.drain(2),
                Calls::DrainFull => {}
                _ => host.receive(0, message),
            }
        }
    }

    /// Times a batch, and gives the least nanoseconds a call so far.
    fn round<A: Agent>(&self, host: &mut Host<A>, messages: &[Vec<u8>], least: f64) -> f64 {
        let saved = host.state;
        let copies = match self.calls {
            Calls::DrainFull => BATCH,
            _ => 0,
        };
        let mut copies = vec![saved; copies];
        let begin = Instant::now();
        self.batch(host, messages, &mut copies);
        let nanoseconds = begin.elapsed().as_nanos() as f64 / BATCH as f64;
        host.state = saved;
        least.min(nanoseconds)
    }

    /// The message of a call.
    fn message(&self, number: u64) -> Vec<u8> {
        match self.calls {
            Calls::Device => ds_message(9, &self.devices.request(VIO, number)),
            Calls::Denied | Calls::Orders => ds_message(9, &orders::request(SHUTDOWN, number)),
            Calls::Query(records) => request(QUERY, number, records, self.blocks, MEMORY),
            Calls::Peer if number.is_multiple_of(2) => peers::reg_req(15, 100),
            Calls::Peer => peers::unreg(100),
            _ => Vec::new(),
        }
    }

    /// Those of a batch.
    fn messages(&self) -> Vec<Vec<u8>> {
        let numbers = 0..BATCH as u64;
        numbers.map(|number| self.message(number)).collect()
    }

    fn run(&self) {
        let messages = self.messages();
        let mut ours = self.host::<Proved>();
        let mut theirs = self.host::<Independent>();
        let (mut least, mut least_theirs) = (f64::MAX, f64::MAX);
        for _ in 0..ROUNDS {
            least = self.round(&mut ours, &messages, least);
            least_theirs = self.round(&mut theirs, &messages, least_theirs);
        }
        assert_eq!(
            ours.seen(),
            theirs.seen(),
            "{}: the agents differ",
            self.name
        );
        print_row(&self.name, least, least_theirs);
    }
}

fn print_head(name: &str) {
    println!(
        "{name:<50} {:>10} {:>12} {:>8}",
        "proved", "independent", "ratio"
    );
}

fn print_row(name: &str, ours: f64, theirs: f64) {
    println!(
        "{name:<50} {ours:>10.1} {theirs:>12.1} {:>8.2}",
        ours / theirs
    );
}

fn cases() -> Vec<Case> {
    let mut cases = Vec::new();
    let few = &[1, 4, 16][..];
    let many = &[1, 4, 16, 64][..];
    for (blocks, channels, records) in [
        (1, 1, few),
        (4, 1, few),
        (16, 1, many),
        (64, 1, many),
        (16, 4, few),
        (64, 4, many),
    ] {
        for &records in records {
            let handles = channels * 4;
            cases.push(Case {
                name: format!("QUERY: records {records}, blocks {blocks}, live handles {handles}"),
                blocks,
                channels,
                devices: Devices::NONE,
                peers: Peers::NONE,
                prepare: Prepare::Nothing,
                calls: Calls::Query(records),
            });
        }
    }
    cases.extend(device_cases());
    cases.extend(peer_cases());
    let others = [
        (
            "shutdown request, denied",
            16,
            Prepare::Nothing,
            Calls::Denied,
        ),
        (
            "permit, request, take in turn",
            16,
            Prepare::Nothing,
            Calls::Orders,
        ),
        (
            "work step, 1 page collected",
            16,
            Prepare::Removal,
            Calls::Work,
        ),
        (
            "work step, 1 page collected, blocks 64",
            64,
            Prepare::Removal,
            Calls::Work,
        ),
        ("soundness, blocks 16", 16, Prepare::Nothing, Calls::Refused),
        ("soundness, blocks 64", 64, Prepare::Nothing, Calls::Refused),
        ("drain of 1 entry", 16, Prepare::Full, Calls::DrainOne),
        ("drain of 64 entries", 16, Prepare::Full, Calls::DrainFull),
    ];
    for (name, blocks, prepare, calls) in others {
        cases.push(Case {
            name: name.to_string(),
            blocks,
            channels: 1,
            devices: Devices::NONE,
            peers: Peers::NONE,
            prepare,
            calls,
        });
    }
    cases
}

/// With no, few and all devices: a query of one of four blocks, and device
/// requests.
fn device_cases() -> Vec<Case> {
    let mut cases = Vec::new();
    let queries =
        Devices::ALL.map(|devices| ("QUERY: records 1, blocks 4", devices, Calls::Query(1)));
    let requests = Devices::ALL.map(|devices| ("device request", devices, Calls::Device));
    // To a query the name of an unknown device is nothing.
    let rows = queries.into_iter().skip(1).chain(requests);
    for (name, devices, calls) in rows {
        cases.push(Case {
            name: format!("{name}, {devices}"),
            blocks: 4,
            channels: 1,
            devices,
            peers: Peers::NONE,
            prepare: Prepare::Nothing,
            calls,
        });
    }
    cases
}

/// With sixteen ids: a query of one of four blocks with no, eight and all
/// registrations of the peer, and one that comes and goes beside no and seven others.
fn peer_cases() -> Vec<Case> {
    let queries = Peers::ALL.map(|peers| (format!("QUERY: {peers}"), peers, Calls::Query(1)));
    let turns = [0, 7].map(|registrations| {
        let peers = Peers::some(registrations);
        let name = format!("REG_REQ, UNREG in turn: {peers}");
        (name, peers, Calls::Peer)
    });
    let rows = queries.into_iter().chain(turns);
    rows.map(|(name, peers, calls)| Case {
        name,
        blocks: 4,
        channels: 1,
        devices: Devices::NONE,
        peers,
        prepare: Prepare::Nothing,
        calls,
    })
    .collect()
}

fn main() -> Result<(), String> {
    let words: Vec<String> = std::env::args().skip(1).collect();
    if !words.is_empty() {
        return profile::run(&words);
    }
    print_head("ns a call");
    cases().iter().for_each(Case::run);
    pieces::run();
    burst::run();
    Ok(())
}
