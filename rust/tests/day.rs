//! 01's day at the panel, C1 to C10 with their exact bytes, and the other
//! replies of the papers.

mod common;
use common::*;
use independent::{build, memory, Service};

#[test]
fn the_day() {
    let mut bench = Bench::new(&BLOCK_LIST[..10]);
    let ack = bench.receive(2, &hex("00000000 00000004 0001 0000"));
    assert_eq!(ack, Ok(hex("00000001 00000002 0000")));
    let offered = bench.offer(2, 0);
    let id = "64722d6d656d00";
    let reg_req = format!("00000003 00000013 8000000000000003 0001 0000 {id}");
    assert_eq!(offered, Ok(hex(&reg_req)));
    let reg_ack = hex("00000004 0000000a 8000000000000003 0000");
    assert_eq!(bench.receive(2, &reg_ack), Ok(vec![]));
    let unconfigure = hex(
        "00000009 00000028 8000000000000003 00004d55 00000001 0000000000000009 \
         0000000010000000 0000000000008000",
    );
    assert_eq!(bench.receive(2, &unconfigure), Ok(vec![]));
    assert_eq!(bench.work(3), Ok((3, vec![])));
    assert_eq!(bench.work(3), Ok((1, vec![])));
    let c8 = hex(
        "00000009 00000034 8000000000000003 0000006f 00000001 0000000000000009 \
         0000000010000000 0000000000008000 00000000 00000001 00000000",
    );
    assert_eq!(c8.len(), 60);
    assert_eq!(bench.work(1), Ok((0, c8)));
    let mark_and_c1_to_c7 = [
        (0x0000_0001_F800_0000, 0),
        (0x0000_0002_0C00_0000, 0),
        (0x0000_0003_2400_0000, 0),
        (0x0000_0004_2C00_0000, 0x8000_0000_0000_0003),
        (0x0000_0005_6400_0001, 9),
        (0x0000_0006_7400_0003, 0),
        (0x0000_0007_7C00_0001, 0),
        (0x0000_0008_8400_0001, 9),
    ];
    assert_eq!(bench.drain(), mark_and_c1_to_c7);
    assert_eq!(bench.state.removal, None);
    assert!(!bench.state.blocks.list[0].configured);
}

#[test]
fn c9_a_higher_major() {
    let mut bench = Bench::new(&[]);
    let nack = bench.receive(2, &build::init_req(3, 0));
    assert_eq!(nack, Ok(hex("00000002 00000002 0001")));
    assert_eq!(bench.last_entry(), (3, 0, 0, 3, 0));
    let nack = bench.receive(2, &build::init_req(0, 7));
    assert_eq!(nack, Ok(hex("00000002 00000002 0000")));
    assert!(!bench.state.channels[2].ready);
}

#[test]
fn c10_query() {
    let mut bench = Bench::with_memory();
    let reply = bench.request(memory::QUERY, &[B]);
    let b = "0000000020000000 0000000000004000";
    let permanent = "0000000000002000 0000000020002000 0000000020003fff";
    let whole = format!("0000006f 00000001 0000000000000009 {b} {permanent}");
    assert_eq!(reply, hex(&whole));
    assert_eq!(bench.last_entry(), (10, 0, 0, 0, 9));
}

#[test]
fn query_of_unknown_and_empty() {
    let mut bench = Bench::with_memory();
    let pair = |addr, size| independent::Pair { addr, size };
    let pairs = [pair(u64::MAX, 3), pair(5, 0), A, UNKNOWN];
    let reply = bench.request(memory::QUERY, &pairs);
    let last_three = |at: usize| reply[16 + 40 * at + 16..16 + 40 * at + 40].to_vec();
    let wrapped = "0000000000000003 ffffffffffffffff 0000000000000001";
    assert_eq!(last_three(0), hex(wrapped));
    assert_eq!(last_three(1), [0; 24]);
    assert_eq!(last_three(2), [0; 24]);
    let unknown = "0000000000006000 0000000010000000 0000000010005fff";
    assert_eq!(last_three(3), hex(unknown));
}

#[test]
fn the_four_offers() {
    let mut bench = Bench::new(&[]);
    bench.receive(1, &build::init_req(1, 9)).unwrap();
    let ids: [&[u8]; 4] = [
        b"dr-mem\0",
        b"dr-vio\0",
        b"domain-shutdown\0",
        b"domain-panic\0",
    ];
    for (service, id) in (0..).zip(ids) {
        let expected = build::reg_req(build::ours(bench.state.last + 1), 1, 0, id);
        assert_eq!(bench.offer(1, service), Ok(expected));
        assert_eq!(bench.offer(1, service), Err(6));
    }
    let offered = |number| Service::Offered {
        handle: build::ours(number),
    };
    assert_eq!(bench.state.channels[1].services, [3, 4, 5, 6].map(offered));
    // REG_ACK of a higher minor registers with the lower one, ours.
    assert_eq!(
        bench.receive(1, &build::reg_ack(build::ours(5), 77)),
        Ok(vec![])
    );
    let registered = Service::Registered {
        handle: build::ours(5),
        minor: 0,
    };
    assert_eq!(bench.state.channels[1].services[2], registered);
    assert_eq!(
        bench.withdraw(1, 2),
        Ok(hex("00000006 00000008 8000000000000005"))
    );
    assert_eq!(bench.withdraw(1, 2), Err(6));
    let nack = build::reg_nack(build::ours(4), 1, 0);
    assert_eq!(bench.receive(1, &nack), Ok(vec![]));
    assert_eq!(bench.state.channels[1].services[1], Service::Idle);
    let kinds: Vec<u64> = bench
        .drain()
        .iter()
        .map(|entry| entry.0 >> 27 & 31)
        .collect();
    assert_eq!(kinds, [31, 1, 4, 4, 4, 4, 5, 7, 6]);
}

#[test]
fn peer_messages_and_their_replies() {
    let mut bench = Bench::with_memory();
    let refused = bench.receive(2, &build::reg_req(0xabcd, 1, 0, b"x\0"));
    let reg_nack = "00000005 00000012 000000000000abcd 0000000000000001 0000";
    assert_eq!(refused, Ok(hex(reg_nack)));
    assert_eq!(bench.last_entry(), (17, 0, 0, 0, 3));
    let unreg = bench.receive(2, &build::of_handle(6, build::ours(2)));
    assert_eq!(unreg, Ok(hex("00000008 00000008 8000000000000002")));
    assert_eq!(bench.last_entry(), (17, 0, 0, 0, 6));
    let nack = bench.receive(2, &build::data(build::ours(2), b"abc"));
    assert_eq!(
        nack,
        Ok(hex("0000000a 00000010 8000000000000002 0000000000000003"))
    );
    assert_eq!(bench.last_entry(), (9, 0, 0, 0, build::ours(2)));
    for (ds_type, message) in [
        (7, build::of_handle(7, build::ours(3))),
        (8, build::of_handle(8, build::ours(3))),
        (10, build::nack(build::ours(3), 3)),
        (4, build::reg_ack(build::ours(3), 0)),
        (5, build::reg_nack(build::ours(3), 1, 0)),
    ] {
        let before = bench.state.channels;
        assert_eq!(bench.receive(2, &message), Ok(vec![]));
        assert_eq!(bench.last_entry(), (17, 0, 0, 0, ds_type));
        assert_eq!(bench.state.channels, before);
    }
    let unreg = bench.receive(2, &build::of_handle(6, build::ours(3)));
    assert_eq!(unreg, Ok(hex("00000007 00000008 8000000000000003")));
    assert_eq!(bench.last_entry(), (7, 0, 0, 0, 0));
}
