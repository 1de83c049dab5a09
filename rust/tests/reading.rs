//! Demand 3 on generated lists: the entries drained, then those held, are
//! numbered from 1 without gap, and read by 01's rules they give back the
//! state; data reaches a service when that reading shows its handle.

use independent::generate::generate;
use independent::lines::{Call, Host, Line};
use independent::wire::{self, Message};
use independent::{build, setup, Channel, Order, Orders, Peers, Service, State};

/// What reading gives: 01's rules, entry by entry.
#[derive(Debug, PartialEq)]
struct Reading {
    channels: [Channel; 4],
    peers: [Peers; 4],
    configured: Vec<bool>,
    devices: Vec<bool>,
    orders: Orders,
    /// Cancelled, record and pages.
    removal: Option<(bool, u64, u64)>,
}

impl Reading {
    /// The parts of a state that reading gives back.
    fn of(state: &State) -> Reading {
        let blocks = state.blocks.listed().iter();
        let devices = state.devices.listed().iter();
        Reading {
            channels: state.channels,
            peers: state.peers,
            configured: blocks.map(|block| block.configured).collect(),
            devices: devices.map(|device| device.configured).collect(),
            orders: state.orders,
            removal: state.removal.map(|removal| {
                (
                    removal.cancelled,
                    removal.position as u64,
                    removal.collected,
                )
            }),
        }
    }

    fn entry(&mut self, first: u64, second: u64) {
        let number = first >> 32;
        let channel = &mut self.channels[(first >> 25 & 3) as usize];
        let peers = &mut self.peers[(first >> 25 & 3) as usize];
        let service = &mut channel.services[(first >> 23 & 3) as usize];
        let (code, count) = (first >> 16 & 7, first & 0xffff);
        match first >> 27 & 31 {
            1 => (*channel, *peers) = (Channel::READY, Peers::default()),
            2 | 3 => (*channel, *peers) = (Channel::CLOSED, Peers::default()),
            4 => {
                let handle = build::ours(number);
                *service = Service::Offered { handle };
            }
            5 => {
                let (handle, minor) = (second, count as u16);
                *service = Service::Registered { handle, minor };
            }
            6 | 7 => *service = Service::Idle,
            11 => {
                for (at, configured) in self.configured.iter_mut().enumerate() {
                    *configured |= second >> at & 1 == 1;
                }
            }
            12 => self.removal = Some((false, 0, 0)),
            kind @ 13..=15 => self.removal_entry(kind, code, count, second),
            16 => self.removal = None,
            18 => self.devices[count as usize] = second == 1,
            kind @ 19..=21 => self.order_entry(kind, first >> 23 & 3, code, second),
            22 => peers.add((first >> 19 & 15) as usize, second, count as u16),
            23 => peers.remove(peers.find(second).unwrap()),
            24 => assert_eq!(second, 0),
            31 => assert_eq!([first, second], [1 << 32 | 31 << 27, 0]),
            kind => assert!([9, 10, 17].contains(&kind)),
        }
    }

    /// Kind 21 leaves an order with the result success, 0.
    fn order_entry(&mut self, kind: u64, service: u64, code: u64, second: u64) {
        match (kind, service, code) {
            (19, 2..=3, ..=1) => self.orders.permitted[service as usize - 2] = code == 1,
            (20, 0, 0) => self.orders.waiting = None,
            (21, 2, 0) => self.orders.waiting = Some(Order::Shutdown { delay: second }),
            (21, 3, 0) => self.orders.waiting = Some(Order::Panic),
            _ => assert!(kind == 21 && service >= 2 && (1..=2).contains(&code) && second == 0),
        }
    }

    fn removal_entry(&mut self, kind: u64, code: u64, count: u64, second: u64) {
        let (cancelled, position, pages) = self.removal.as_mut().unwrap();
        match kind {
            13 => (*cancelled, *pages) = (true, 0),
            14 => *pages += count,
            _ => {
                // The record at the position, and its block.
                assert_eq!(second >> 6, *position);
                (*position, *pages) = (*position + 1, 0);
                if code == 0 {
                    self.configured[(second & 63) as usize] = false;
                }
            }
        }
    }
}

/// The receive that a piece makes, if it ends a message.
fn made(host: &Host, call: &Call) -> Option<Call> {
    let Call::Piece(channel, bytes) = call else {
        return None;
    };
    let message = host.front.message(*channel, bytes)?;
    Some(Call::Receive(*channel, message))
}

/// Reads along with the calls: after each, one entry more is known.
struct Follower {
    host: Host,
    reading: Reading,
    read: u64,
    drained: u64,
}

impl Follower {
    fn call(&mut self, call: &Call) {
        let shown = (self.reading.channels, self.reading.peers);
        let made = made(&self.host, call).unwrap_or(call.clone());
        let (devices, ids) = (self.host.devices.clone(), self.host.ids.clone());
        let mut answer = Vec::new();
        self.host.perform(call, &mut answer);
        let answer = String::from_utf8(answer).unwrap();
        if let Call::Setup(words) = call {
            let made = match answer.as_str() {
                "setup accepted\n" => setup(words, &devices, &ids, &mut [0; 128]).unwrap(),
                _ => State::default(),
            };
            self.reading = Reading::of(&made);
            (self.read, self.drained) = (0, 0);
        }
        for line in answer.lines().filter(|line| line.starts_with("entry ")) {
            self.drained += 1;
            assert_eq!(u64::from_str_radix(&line[6..14], 16), Ok(self.drained));
        }
        let state = &self.host.state;
        // Only the empty state has no entry.
        assert_eq!(state.is_sound(), state.last > 0);
        assert_eq!(state.held, state.last - self.drained);
        while self.read < state.last {
            self.read += 1;
            let [first, second] = self.host.entry(self.read);
            assert_eq!(first >> 32, self.read);
            self.reading.entry(first, second);
            self.reached(&made, first, &shown);
        }
        assert_eq!(self.reading, Reading::of(state));
    }

    /// Data reaches a service when its handle was registered there.
    fn reached(&self, call: &Call, first: u64, (channels, peers): &([Channel; 4], [Peers; 4])) {
        let (kind, service) = (first >> 27 & 31, first >> 23 & 3);
        let Call::Receive(channel, message) = call else {
            return;
        };
        let Some(Message::Data { handle, .. }) = wire::parse(message) else {
            return;
        };
        let at = *channel as usize;
        let of_peer = peers[at].find(handle).is_some();
        match channels[at].registered(handle) {
            Some(0) => assert!((10..=13).contains(&kind) && service == 0),
            Some(1) => assert!([(18, 0), (10, 1)].contains(&(kind, service))),
            Some(own) => assert_eq!((kind, service), (21, own as u64)),
            None if of_peer => assert_eq!(kind, 24),
            None => assert!(kind == 9 || kind == 2),
        }
    }
}

/// The lists on which the gate compares the two agents, and shorter ones.
#[test]
fn reading_gives_back_the_state() {
    let shorter = (3..20).map(|seed| (seed, 3_000));
    for (seed, calls) in [(1, 100_000), (2, 100_000)].into_iter().chain(shorter) {
        let host = Host::default();
        let mut follower = Follower {
            reading: Reading::of(&host.state),
            host,
            read: 0,
            drained: 0,
        };
        for line in generate(seed, calls).split(|byte| *byte == b'\n') {
            if let Line::Call(call) = Line::read(line) {
                follower.call(&call);
            }
        }
    }
}

/// A call of the front stands for the receive that it makes, if any: a host
/// that is given these instead has the same answers, entries and state.
#[test]
fn a_front_call_stands_for_its_receive() {
    for seed in 1..=30 {
        let (mut fronted, mut plain) = (Host::default(), Host::default());
        for line in generate(seed, 3_000).split(|byte| *byte == b'\n') {
            let Line::Call(call) = Line::read(line) else {
                continue;
            };
            let stands_for = match call {
                Call::Piece(..) => made(&fronted, &call),
                Call::Reopen(_) => None,
                _ => Some(call.clone()),
            };
            let (last, mut answers) = (fronted.state.last, [Vec::new(), Vec::new()]);
            fronted.perform(&call, &mut answers[0]);
            match stands_for {
                Some(made) => plain.perform(&made, &mut answers[1]),
                None => assert_eq!(fronted.state.last, last),
            }
            let [answer, expected] = answers.map(|text| String::from_utf8(text).unwrap());
            if let (Call::Piece(..), false) = (&call, expected.is_empty()) {
                let reply = match answer.split_once(" message") {
                    Some((_, reply)) => format!("receive accepted{reply}"),
                    None => answer.replace("piece", "receive"),
                };
                assert_eq!(reply, expected);
            } else if call != Call::State && !expected.is_empty() {
                assert_eq!(answer, expected);
            }
            assert_eq!(fronted.state, plain.state);
            if fronted.state.last > 0 {
                let number = fronted.state.last;
                assert_eq!(fronted.entry(number), plain.entry(number));
            }
        }
    }
}
