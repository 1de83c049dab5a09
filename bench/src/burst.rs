//! The benchmark of ticket 11's burst: queries of one record on one channel, and
//! a drain whenever 64 entries are held. No buffer is cleared between calls. Warm,
//! one state takes all 100,032; cold, 1,563 states take one each in turn, 64 times,
//! and before each turn other words are read, outside the time taken, that fill
//! all caches: each call finds its state, journal and output in none of them. The
//! states are restored outside the time taken, the two agents take turns, and the
//! fastest round of each counts.

use crate::{print_head, print_row, request};
use crate::{Agent, Devices, Host, Independent, Peers, Proved, MEMORY, QUERY};
use std::hint::black_box;
use std::time::Instant;

/// The entries at which the journal is full and is drained.
const FULL: u64 = 64;
/// The drains of a warm burst of 100,000 queries.
const DRAINS: u64 = 100_000_u64.div_ceil(FULL);
/// The states of a cold one.
const STATES: usize = DRAINS as usize;
/// The words that are read to fill the caches, 128 MB.
const OTHERS: usize = 1 << 24;
const WARM_ROUNDS: usize = 40;
const COLD_ROUNDS: usize = 6;
/// Full journals that are drained one behind the other, for one look at the clock.
const COPIES: usize = 8;

/// The lists that the states are made of.
#[derive(Clone, Copy)]
struct Lists {
    name: &'static str,
    blocks: u64,
    devices: Devices,
    peers: Peers,
}

const LISTS: [Lists; 2] = [
    Lists {
        name: "small lists",
        blocks: 4,
        devices: Devices::NONE,
        peers: Peers::NONE,
    },
    Lists {
        name: "full lists",
        blocks: 64,
        devices: Devices::FULL,
        peers: Peers::some(32),
    },
];

/// Nanoseconds of receive a query, of drain a drain, and of both a query.
#[derive(Clone, Copy)]
struct Times {
    receive: f64,
    drain: f64,
    both: f64,
}

impl Times {
    const NONE: Times = Times {
        receive: f64::MAX,
        drain: f64::MAX,
        both: f64::MAX,
    };

    fn least(self, other: Times) -> Times {
        Times {
            receive: self.receive.min(other.receive),
            drain: self.drain.min(other.drain),
            both: self.both.min(other.both),
        }
    }
}

fn nanoseconds(calls: impl FnOnce()) -> f64 {
    let begin = Instant::now();
    calls();
    begin.elapsed().as_nanos() as f64
}

impl Lists {
    fn host<A: Agent>(&self) -> Host<A> {
        Host::new(self.blocks, 1, self.devices, self.peers)
    }

    fn query(&self, number: u64) -> Vec<u8> {
        request(QUERY, number, 1, self.blocks, MEMORY)
    }
}

/// A whole burst on one state, then the same with a look at the clock before and
/// after each 64 queries, and after that drains of copies.
fn warm<A: Agent>(host: &mut Host<A>, queries: &[Vec<u8>]) -> Times {
    let saved = host.state;
    let count = queries.len() as f64;
    let both = nanoseconds(|| {
        for group in queries.chunks(FULL as usize) {
            group.iter().for_each(|query| host.receive(0, query));
            host.drain_all();
        }
    });
    host.state = saved;
    let mut receive = 0.0;
    let mut drain = 0.0;
    for (number, group) in queries.chunks(FULL as usize).enumerate() {
        receive += nanoseconds(|| group.iter().for_each(|query| host.receive(0, query)));
        if number % COPIES == 0 {
            let full = host.state;
            let mut copies = [full; COPIES];
            drain += nanoseconds(|| {
                for copy in &mut copies {
                    host.drain_copy(copy);
                }
            });
        }
        host.drain_all();
    }
    host.state = saved;
    let drains = (DRAINS as usize).div_ceil(COPIES) * COPIES;
    Times {
        receive: receive / count,
        drain: drain / drains as f64,
        both: both / count,
    }
}

/// 64 queries to each state in turn, then a drain of each.
fn cold<A: Agent>(hosts: &mut [Host<A>], queries: &[Vec<u8>], others: &[u64]) -> Times {
    let saved = hosts[0].state;
    let fill = || black_box(others.iter().fold(0, |all, word| all ^ word));
    let mut receive = 0.0;
    for query in queries {
        fill();
        receive += nanoseconds(|| hosts.iter_mut().for_each(|host| host.receive(0, query)));
    }
    fill();
    let drain = nanoseconds(|| hosts.iter_mut().for_each(Host::drain_all));
    hosts.iter_mut().for_each(|host| host.state = saved);
    let count = (queries.len() * hosts.len()) as f64;
    Times {
        receive: receive / count,
        drain: drain / hosts.len() as f64,
        both: (receive + drain) / count,
    }
}

fn print(name: &str, ours: Times, theirs: Times) {
    print_row(
        &format!("burst, {name}: receive"),
        ours.receive,
        theirs.receive,
    );
    print_row(
        &format!("burst, {name}: drain of 64"),
        ours.drain,
        theirs.drain,
    );
    print_row(
        &format!("burst, {name}: both, a query"),
        ours.both,
        theirs.both,
    );
}

fn run_warm(lists: Lists) {
    let queries: Vec<_> = (0..DRAINS * FULL).map(|n| lists.query(n)).collect();
    let (mut ours, mut theirs) = (lists.host::<Proved>(), lists.host::<Independent>());
    let (mut least, mut least_theirs) = (Times::NONE, Times::NONE);
    for _ in 0..WARM_ROUNDS {
        least = least.least(warm(&mut ours, &queries));
        least_theirs = least_theirs.least(warm(&mut theirs, &queries));
    }
    assert_eq!(ours.seen(), theirs.seen(), "the agents differ");
    print(lists.name, least, least_theirs);
}

fn run_cold(lists: Lists) {
    let queries: Vec<_> = (0..FULL).map(|n| lists.query(n)).collect();
    let mut ours: Vec<_> = (0..STATES).map(|_| lists.host::<Proved>()).collect();
    let mut theirs: Vec<_> = (0..STATES).map(|_| lists.host::<Independent>()).collect();
    let others: Vec<u64> = (0..OTHERS as u64).collect();
    let (mut least, mut least_theirs) = (Times::NONE, Times::NONE);
    for _ in 0..COLD_ROUNDS {
        least = least.least(cold(&mut ours, &queries, &others));
        least_theirs = least_theirs.least(cold(&mut theirs, &queries, &others));
    }
    let same = ours
        .iter()
        .zip(&theirs)
        .all(|(ours, theirs)| ours.seen() == theirs.seen());
    assert!(same, "the agents differ");
    print(&format!("{}, cold", lists.name), least, least_theirs);
}

pub fn run() {
    print_head("ns a query, or a drain");
    LISTS.into_iter().for_each(run_warm);
    LISTS.into_iter().for_each(run_cold);
}
