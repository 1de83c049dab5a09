//! The bounds that 01 names, the ring, and the errors seen in earlier agents.

mod common;
use common::*;
use independent::{build, drain, memory, show, wire, Pair, Service};

#[test]
fn sixty_three_and_sixty_four_held() {
    let mut bench = Bench::with_memory();
    while bench.state.held < 63 {
        bench.close(0).unwrap();
    }
    assert_eq!(bench.close(0), Ok(vec![]));
    let full = bench.clone();
    assert_eq!(bench.state.held, 64);
    bench.unconfigure_refused();
    assert_eq!(bench.offer(2, 1), Err(4));
    assert_eq!(bench.withdraw(2, 0), Err(4));
    assert_eq!(bench.close(2), Err(4));
    assert_eq!(bench.work(1), Err(4));
    assert_eq!(bench, full);
    // Room for one is used for one.
    let mut run = [0; 3];
    assert_eq!(drain(&mut bench.state, &bench.journal, &mut run), Ok(1));
    assert_eq!(run, [0x0000_0001_F800_0000, 0, 0]);
    assert!(bench.close(2).is_ok());
    assert_eq!(bench.close(2), Err(4));
    assert_eq!(bench.journal[..2], [0x0000_0041_1400_0000, 0]);
    assert_eq!(bench.journal[2..], full.journal[2..]);
}

impl Bench {
    fn unconfigure_refused(&mut self) {
        let message = build::data(
            build::ours(3),
            &build::request(memory::UNCONFIGURE, 9, &[A]),
        );
        assert_eq!(self.receive(2, &message), Err(4));
    }
}

#[test]
fn the_ring_wraps() {
    let mut bench = Bench::new(&[]);
    let mut next = 1;
    for round in 1..=500u64 {
        // Setup's own entry is held in the first round.
        for _ in 0..round % 65 {
            bench.close(round % 4).unwrap();
        }
        for (first, second) in bench.drain() {
            let kind = if next == 1 { 31 } else { 2 };
            assert_eq!((first >> 32, first >> 27 & 31, second), (next, kind, 0));
            next += 1;
        }
    }
    assert_eq!(bench.state.last + 1, next);
    assert_eq!(bench.state.held, 0);
}

#[test]
fn drain_runs() {
    for (words, expected) in [
        (0, 0),
        (1, 0),
        (2, 1),
        (3, 1),
        (5, 2),
        (6, 3),
        (7, 3),
        (8, 4),
        (9, 4),
        (128, 4),
        (256, 4),
    ] {
        let mut bench = Bench::with_memory();
        let mut run = vec![7; words];
        assert_eq!(
            drain(&mut bench.state, &bench.journal, &mut run),
            Ok(expected)
        );
        assert_eq!(run[..2 * expected], bench.journal[..2 * expected]);
        assert!(run[2 * expected..].iter().all(|word| *word == 7));
        assert_eq!(
            (bench.state.held, bench.state.last),
            (4 - expected as u64, 4)
        );
    }
}

#[test]
fn outputs_of_2_591_and_2_592_bytes() {
    let mut bench = Bench::with_memory();
    let pairs: Vec<Pair> = (1..=64).map(|addr| Pair { addr, size: 1 }).collect();
    let query = |number| {
        build::data(
            build::ours(3),
            &build::request(memory::QUERY, number, &pairs),
        )
    };
    bench.out.truncate(2591);
    let before = bench.clone();
    assert_eq!(bench.receive(2, &query(1)), Err(2));
    assert_eq!(bench.close(0), Err(2));
    assert_eq!(bench.offer(2, 1), Err(2));
    assert_eq!(bench.work(1), Err(2));
    assert_eq!(bench, before);
    let length = |bench: &mut Bench, number| {
        let reply = bench.receive(2, &query(number));
        reply.map(|reply| reply.len())
    };
    bench.out.push(0xee);
    assert_eq!(length(&mut bench, 1), Ok(2592));
    bench.out.resize(4096, 0xee);
    assert_eq!(length(&mut bench, 2), Ok(2592));
}

#[test]
fn record_counts() {
    let pairs: Vec<Pair> = (1..=65).map(|addr| Pair { addr, size: 1 }).collect();
    for memory_type in [memory::QUERY, memory::CONFIGURE, memory::UNCONFIGURE] {
        let good_up_to_64 =
            [0, 1, 2, 16, 17, 63, 64, 65].map(|count| (count, (1..=64).contains(&count)));
        for (count, good) in good_up_to_64 {
            let mut bench = Bench::with_memory();
            let reply = bench.request(memory_type, &pairs[..count]);
            let begun = good && memory_type == memory::UNCONFIGURE;
            assert_eq!(bench.state.removal.is_some(), begun);
            match (begun, good) {
                (true, _) => assert_eq!(reply, []),
                (_, true) => assert_eq!(reply[..8], [0, 0, 0, 0x6f, 0, 0, 0, count as u8]),
                (_, false) => assert_eq!(reply[..8], [0, 0, 0, 0x65, 0, 0, 0, 0]),
            }
        }
    }
}

/// Whether a message leaves a ready channel ready.
fn well_formed(message: &[u8]) -> bool {
    let mut bench = Bench::with_memory();
    let reply = bench.receive(2, message).unwrap();
    let ready = bench.state.channels[2].ready;
    if !ready {
        assert_eq!(reply, []);
        assert_eq!(bench.last_entry(), (2, 0, 0, 0, 1));
        assert_eq!(bench.state.channels[2].services, [Service::Idle; 4]);
    }
    ready
}

#[test]
fn payload_lengths() {
    let of_length = |ds_type, length| build::ds(ds_type, &vec![1; length]);
    for (ds_type, length) in [(4, 10), (5, 18), (6, 8), (7, 8), (8, 8), (10, 16)] {
        assert!(well_formed(&of_length(ds_type, length)));
        assert!(!well_formed(&of_length(ds_type, length - 1)));
        assert!(!well_formed(&of_length(ds_type, length + 1)));
    }
    for (length, good) in [
        (7, false),
        (8, true),
        (9, true),
        (4096, true),
        (4097, false),
    ] {
        assert_eq!(well_formed(&of_length(wire::DATA, length)), good);
    }
    for ds_type in [1, 2, 11, 12, 0x0100_0009] {
        assert!(!well_formed(&of_length(ds_type, 8)));
    }
    let data = of_length(wire::DATA, 20);
    assert!(!well_formed(&data[..27]));
    assert!(!well_formed(&[data.as_slice(), &[0]].concat()));
    for short in 0..8 {
        assert!(!well_formed(&data[..short]));
    }
    assert!(!well_formed(&build::with_length(
        wire::DATA,
        u32::MAX,
        &[0; 8]
    )));
    assert!(!well_formed(&build::ds(wire::INIT_REQ, &[0, 1, 0])));
}

#[test]
fn ids_of_reg_req() {
    let id = |length: usize| [vec![b'x'; length - 1], vec![0]].concat();
    for length in [1, 2, 1023, 1024] {
        assert!(well_formed(&build::reg_req(1, 1, 0, &id(length))));
    }
    assert!(!well_formed(&build::reg_req(1, 1, 0, &id(1025))));
    for bad in [b"".as_slice(), b"x", b"\0\0", b"x\0y\0", b"\0x"] {
        assert!(!well_formed(&build::reg_req(1, 1, 0, bad)));
    }
}

#[test]
fn closed_channels_take_init_req_only() {
    let messages = [
        build::reg_req(1, 1, 0, b"x\0"),
        build::reg_ack(build::ours(3), 0),
        build::of_handle(6, build::ours(3)),
        build::nack(build::ours(3), 3),
        build::data(build::ours(3), b""),
    ];
    for message in messages {
        let mut bench = Bench::with_memory();
        bench.close(2).unwrap();
        assert_eq!(bench.receive(2, &message), Ok(vec![]));
        assert_eq!(bench.last_entry(), (2, 0, 0, 0, 1));
        assert!(bench.receive(2, &build::init_req(1, 0)).is_ok());
        assert!(bench.state.channels[2].ready);
    }
}

/// `domain-shutdown` registered on channel 1 under handle 6.
fn with_shutdown() -> Bench {
    let mut bench = Bench::with_memory();
    bench.receive(1, &build::init_req(1, 0)).unwrap();
    bench.offer(1, 2).unwrap();
    bench
        .receive(1, &build::reg_ack(build::ours(6), 0))
        .unwrap();
    bench
}

#[test]
fn show_is_empty() {
    let bench = with_shutdown();
    for channel in [0, 1, 2, 4, 1 << 32 | 1, u64::MAX] {
        for handle in [
            3,
            6,
            build::ours(3),
            build::ours(6),
            build::ours(6 | 1 << 32),
        ] {
            let message = build::data(handle, b"stop");
            assert_eq!(show(&bench.state, channel, &message), b"");
            assert_eq!(show(&bench.state, channel, &message[..19]), b"");
        }
        let message = build::ds(7, &build::ours(6).to_be_bytes());
        assert_eq!(show(&bench.state, channel, &message), b"");
    }
}

#[test]
fn handles_are_64_bits_and_of_their_channel() {
    let mut bench = with_shutdown();
    let own = [3 | 1 << 32, 3 << 32, 0, 6].map(build::ours);
    let bare = [3, 3 << 32, 0, 6, u64::MAX];
    for handle in own.into_iter().chain(bare) {
        let reply = bench.receive(2, &build::data(handle, b"abc")).unwrap();
        assert_eq!(reply, build::nack(handle, 3));
        assert_eq!(bench.last_entry(), (9, 0, 0, 0, handle));
        let reply = bench.receive(2, &build::of_handle(6, handle)).unwrap();
        assert_eq!(reply, build::of_handle(8, handle));
    }
    bench.offer(2, 1).unwrap();
    let handle = build::ours(bench.state.last);
    let offered = bench.state.channels;
    bench
        .receive(2, &build::reg_ack(handle | 1 << 32, 0))
        .unwrap();
    bench
        .receive(2, &build::reg_nack(handle | 1 << 32, 1, 0))
        .unwrap();
    assert_eq!(bench.state.channels, offered);
    // Data for an offered handle is refused.
    assert_eq!(
        bench.receive(2, &build::data(handle, b"")),
        Ok(build::nack(handle, 3))
    );
}

#[test]
fn an_old_handle_does_not_outlive_init_req() {
    let mut bench = Bench::with_memory();
    bench.receive(2, &build::init_req(1, 0)).unwrap();
    assert_eq!(
        bench.receive(2, &build::data(build::ours(3), b"abc")),
        Ok(build::nack(build::ours(3), 3))
    );
    assert_eq!(
        bench.receive(2, &build::reg_ack(build::ours(3), 0)),
        Ok(vec![])
    );
    assert_eq!(bench.state.channels[2].services[0], Service::Idle);
}
