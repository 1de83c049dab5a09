//! Services of the peer, ticket 7 of 02: each reply by hand, and what drops a
//! registration.

mod common;
use common::*;
use independent::peer::service::{judge, Answer};
use independent::{build, show, wire, Peers, Service};

/// `sp` 2.3, `hypervisor` 1.0, and an id of 32 bytes, 1.65535.
fn id_list() -> Vec<u64> {
    let long = [
        0x6162_6364_6566_6768,
        0x696a_6b6c_6d6e_6f70,
        0x7172_7374_7576_7778,
        0x797a_3031_3233_3400,
    ];
    let ids = [
        [2, 3, 3, 0x7370_0000_0000_0000, 0, 0, 0],
        [1, 0, 11, 0x6879_7065_7276_6973, 0x6f72_0000_0000_0000, 0, 0],
        [1, 65_535, 32, long[0], long[1], long[2], long[3]],
    ];
    ids.concat()
}

const LONG: &[u8] = b"abcdefghijklmnopqrstuvwxyz01234\0";

/// Channels 1 and 2 ready, with these ids; two entries are used.
fn with_ids(ids: &[u64]) -> Bench {
    let mut bench = Bench::new(&BLOCK_LIST);
    bench.state.ids = independent::setup(&[], &[], ids, &mut [0; 128])
        .unwrap()
        .ids;
    bench.receive(1, &build::init_req(1, 0)).unwrap();
    bench.receive(2, &build::init_req(1, 0)).unwrap();
    bench
}

/// So many ids of version 1.1: `a`, `b`, ..
fn many(count: u64) -> Vec<u64> {
    let id = |number| [1, 1, 2, (0x61 + number) << 56, 0, 0, 0];
    (0..count).map(id).collect::<Vec<_>>().concat()
}

fn letter(number: u8) -> [u8; 2] {
    [b'a' + number, 0]
}

/// The places, handles and minors that are registered on a channel.
fn registered(bench: &Bench, channel: usize) -> Vec<(usize, u64, u16)> {
    let peers = &bench.state.peers[channel];
    let places = peers.places();
    places
        .map(|place| (place, peers.handles[place], peers.minors[place]))
        .collect()
}

/// The two words of the last entry, without its number.
fn last_words(bench: &Bench) -> (u64, u64) {
    let at = ((bench.state.last - 1) % 64 * 2) as usize;
    assert_eq!(bench.journal[at] >> 32, bench.state.last);
    (bench.journal[at] & 0xffff_ffff, bench.journal[at + 1])
}

const NOTED: (u64, u64) = (17 << 27 | 2 << 25, 3);

/// A REG_REQ on channel 2, its reply, and the first and second word of its
/// entry.
type Row = (&'static str, &'static str, (u64, u64));

/// Kind 22 on channel 2.
const fn acknowledged(place: u64, minor: u64, handle: u64) -> (u64, u64) {
    (22 << 27 | 2 << 25 | place << 19 | minor, handle)
}

#[rustfmt::skip]
const BY_HAND: [Row; 17] = [
    // A lower major: 0. A higher one: ours, 2.
    ("00000003 0000000f 0000000000000007 0001 0000 737000", "00000005 00000012 0000000000000007 0000000000000001 0000", NOTED),
    ("00000003 0000000f 0000000000000007 0003 0000 737000", "00000005 00000012 0000000000000007 0000000000000001 0002", NOTED),
    // Not listed: another id, the beginning of one, one more byte, the zero alone.
    ("00000003 0000000f 0000000000000007 0002 0000 737100", "00000005 00000012 0000000000000007 0000000000000001 0000", NOTED),
    ("00000003 0000000e 0000000000000007 0002 0000 7300", "00000005 00000012 0000000000000007 0000000000000001 0000", NOTED),
    ("00000003 00000010 0000000000000007 0002 0000 73707000", "00000005 00000012 0000000000000007 0000000000000001 0000", NOTED),
    ("00000003 0000000d 0000000000000007 0002 0000 00", "00000005 00000012 0000000000000007 0000000000000001 0000", NOTED),
    // A top bit, before the id and the version are looked at.
    ("00000003 0000000f 8000000000000008 0002 0000 737000", "00000005 00000012 8000000000000008 0000000000000002 0000", NOTED),
    ("00000003 0000000f 8000000000000008 0003 0000 737000", "00000005 00000012 8000000000000008 0000000000000002 0000", NOTED),
    ("00000003 0000000f ffffffffffffffff 0002 0000 737100", "00000005 00000012 ffffffffffffffff 0000000000000002 0000", NOTED),
    // The right major, with a lower minor: theirs.
    ("00000003 0000000f 0000000000000007 0002 0001 737000", "00000004 0000000a 0000000000000007 0001", acknowledged(0, 1, 7)),
    // The same again; its handle with another id; its id with another handle.
    ("00000003 0000000f 0000000000000007 0002 0001 737000", "00000005 00000012 0000000000000007 0000000000000002 0000", NOTED),
    ("00000003 00000017 0000000000000007 0001 0000 68797065727669736f7200", "00000005 00000012 0000000000000007 0000000000000002 0000", NOTED),
    ("00000003 0000000f 0000000000000007 0002 0001 737100", "00000005 00000012 0000000000000007 0000000000000002 0000", NOTED),
    ("00000003 0000000f 0000000000000008 0003 0001 737000", "00000005 00000012 0000000000000008 0000000000000002 0000", NOTED),
    // A higher minor: ours. Handle 0 is a handle.
    ("00000003 00000017 0000000000000000 0001 0009 68797065727669736f7200", "00000004 0000000a 0000000000000000 0000", acknowledged(1, 0, 0)),
    // Equal minors, the longest id, the highest handle; it agrees with another in 32 bits.
    ("00000003 0000002c 7fffffff00000007 0001 ffff 6162636465666768696a6b6c6d6e6f707172737475767778797a303132333400", "00000004 0000000a 7fffffff00000007 ffff", acknowledged(2, 65_535, 0x7fff_ffff_0000_0007)),
    ("00000003 0000002c 7ffffffe00000007 0001 ffff 6162636465666768696a6b6c6d6e6f707172737475767778797a303132333400", "00000005 00000012 7ffffffe00000007 0000000000000002 0000", NOTED),
];

#[test]
fn registrations_by_hand() {
    let mut bench = with_ids(&id_list());
    for (message, reply, entry) in BY_HAND {
        assert_eq!(bench.receive(2, &hex(message)), Ok(hex(reply)), "{message}");
        assert_eq!(last_words(&bench), entry, "{message}");
    }
    let all = [(0, 7, 1), (1, 0, 0), (2, 0x7fff_ffff_0000_0007, 65_535)];
    assert_eq!(registered(&bench, 2), all);
    assert_eq!(registered(&bench, 1), []);
    assert!(bench.state.is_sound());
}

#[test]
fn the_ninth() {
    let mut bench = with_ids(&many(16));
    for number in 0..8 {
        let reg_req = build::reg_req(number.into(), 1, 1, &letter(15 - number));
        let reply = bench.receive(2, &reg_req);
        assert_eq!(reply, Ok(build::reg_ack(number.into(), 1)));
    }
    let places: Vec<usize> = registered(&bench, 2).iter().map(|it| it.0).collect();
    assert_eq!(places, [8, 9, 10, 11, 12, 13, 14, 15]);
    let before = bench.state.peers;
    // Whatever else is right or wrong with it.
    for (major, id) in [(1, b"a\0"), (2, b"a\0"), (0, b"a\0"), (1, b"z\0")] {
        let reply = bench.receive(2, &build::reg_req(100, major, 0, id));
        let dup = hex("00000005 00000012 0000000000000064 0000000000000002 0000");
        assert_eq!(reply, Ok(dup));
        assert_eq!(last_words(&bench), NOTED);
    }
    assert_eq!(bench.state.peers, before);
    // Another channel has its own eight, with the same ids and handles.
    for number in 0..8 {
        let reg_req = build::reg_req(number.into(), 1, 0, &letter(15 - number));
        let reply = bench.receive(1, &reg_req);
        assert_eq!(reply, Ok(build::reg_ack(number.into(), 0)));
    }
    // One that ended makes room.
    let unreg = build::of_handle(wire::UNREG, 3);
    assert_eq!(bench.receive(2, &unreg), Ok(build::of_handle(7, 3)));
    let reply = bench.receive(2, &build::reg_req(3, 1, 0, b"a\0"));
    assert_eq!(reply, Ok(build::reg_ack(3, 0)));
    assert_eq!(registered(&bench, 2)[0], (0, 3, 0));
    assert!(bench.state.is_sound());
}

#[test]
fn without_ids_all_is_refused() {
    let mut bench = with_ids(&[]);
    let reply = bench.receive(2, &build::reg_req(5, 1, 0, b"sp\0"));
    assert_eq!(reply, Ok(build::reg_nack(5, 1, 0)));
    let reply = bench.receive(2, &build::reg_req(build::ours(6), 1, 0, b"sp\0"));
    assert_eq!(reply, Ok(build::reg_nack(build::ours(6), 2, 0)));
    // An id of more than 32 bytes is well formed, and listed nowhere.
    let mut bench = with_ids(&id_list());
    for length in [33, 40, 1_024] {
        let mut id = [&LONG[..31], &[b'x'; 1_000]].concat();
        id.truncate(length - 1);
        id.push(0);
        let reply = bench.receive(2, &build::reg_req(5, 1, 0, &id));
        assert_eq!(reply, Ok(build::reg_nack(5, 1, 0)));
    }
    assert_eq!(registered(&bench, 2), []);
}

/// `sp` registered on channel 2 under 7, and `dr-mem` there under 6.
fn with_peer() -> Bench {
    let mut bench = with_ids(&id_list());
    bench.receive(2, &build::reg_req(7, 2, 3, b"sp\0")).unwrap();
    bench.state.last = 5;
    bench.offer(2, 0).unwrap();
    let ours = build::ours(6);
    bench.receive(2, &build::reg_ack(ours, 0)).unwrap();
    bench
}

#[test]
fn unreg_of_its_handle() {
    let mut bench = with_peer();
    let unreg = hex("00000006 00000008 0000000000000007");
    let ack = hex("00000007 00000008 0000000000000007");
    let nack = hex("00000008 00000008 0000000000000007");
    // On another channel it is none.
    assert_eq!(bench.receive(1, &unreg), Ok(nack.clone()));
    assert_eq!(last_words(&bench), (17 << 27 | 1 << 25, 6));
    assert_eq!(registered(&bench, 2), [(0, 7, 3)]);
    assert_eq!(bench.receive(2, &unreg), Ok(ack));
    assert_eq!(last_words(&bench), (23 << 27 | 2 << 25, 7));
    assert_eq!(bench.state.peers, [Peers::default(); 4]);
    assert_eq!(bench.receive(2, &unreg), Ok(nack));
    assert_eq!(last_words(&bench), (17 << 27 | 2 << 25, 6));
    // Our own service is there still.
    assert_eq!(bench.state.channels[2].live(build::ours(6)), Some(0));
}

#[test]
fn its_handle_is_not_one_of_ours() {
    let mut bench = with_peer();
    // The peer's handle is the number of our offer, without the top bit.
    bench
        .receive(2, &build::reg_req(6, 1, 0, b"hypervisor\0"))
        .unwrap();
    let before = bench.state;
    for message in [
        build::reg_ack(6, 0),
        build::reg_nack(6, 1, 0),
        build::reg_ack(7, 0),
        build::reg_nack(7, 1, 0),
        build::of_handle(wire::UNREG_ACK, 7),
        build::of_handle(wire::UNREG_NACK, 7),
        build::nack(7, 3),
    ] {
        assert_eq!(bench.receive(2, &message), Ok(vec![]));
        assert_eq!(last_words(&bench).0, 17 << 27 | 2 << 25);
        assert_eq!(bench.state.peers, before.peers);
        assert_eq!(bench.state.channels, before.channels);
    }
    // UNREG of either ends that one alone.
    let unreg = build::of_handle(wire::UNREG, build::ours(6));
    let mut ended = bench.clone();
    assert_eq!(
        ended.receive(2, &unreg),
        Ok(build::of_handle(7, build::ours(6)))
    );
    assert_eq!(last_words(&ended), (7 << 27 | 2 << 25, 0));
    assert_eq!(ended.state.peers, before.peers);
    assert_eq!(ended.state.channels[2].services[0], Service::Idle);
    let unreg = build::of_handle(wire::UNREG, 6);
    assert_eq!(bench.receive(2, &unreg), Ok(build::of_handle(7, 6)));
    assert_eq!(last_words(&bench), (23 << 27 | 2 << 25, 6));
    assert_eq!(bench.state.channels, before.channels);
    assert_eq!(registered(&bench, 2), [(0, 7, 3)]);
    // Withdraw sends our own handle.
    let sent = bench.withdraw(2, 0);
    assert_eq!(sent, Ok(hex("00000006 00000008 8000000000000006")));
}

#[test]
fn data_goes_to_the_host() {
    let mut bench = with_peer();
    let message = hex("00000009 0000000b 0000000000000007 616263");
    assert_eq!(show(&bench.state, 2, &message), b"abc");
    let before = bench.state;
    assert_eq!(bench.receive(2, &message), Ok(vec![]));
    assert_eq!(last_words(&bench), (24 << 27 | 2 << 25, 0));
    assert_eq!(bench.state.peers, before.peers);
    // No bytes, and the most.
    for length in [0, 1, 4_088] {
        let data = vec![0x5a; length];
        let message = build::data(7, &data);
        assert_eq!(show(&bench.state, 2, &message), data);
        assert_eq!(bench.receive(2, &message), Ok(vec![]));
        assert_eq!(last_words(&bench).0, 24 << 27 | 2 << 25);
    }
    // Another channel, another handle, another type, a bad form.
    for channel in [0, 1, 3, 4, 1 << 32 | 2, u64::MAX] {
        assert_eq!(show(&bench.state, channel, &message), b"");
    }
    let ours = build::data(build::ours(6), b"abc");
    for handle in [0, 8, 7 | 1 << 32, build::ours(8)] {
        assert_eq!(show(&bench.state, 2, &build::data(handle, b"abc")), b"");
        let reply = bench.receive(2, &build::data(handle, b"abc"));
        assert_eq!(reply, Ok(build::nack(handle, 3)));
        assert_eq!(last_words(&bench), (9 << 27 | 2 << 25, handle));
    }
    assert_eq!(show(&bench.state, 2, &ours), b"");
    assert_eq!(show(&bench.state, 2, &message[..18]), b"");
    assert_eq!(show(&bench.state, 2, &build::of_handle(6, 7)), b"");
    // A state that is not sound shows nothing.
    bench.state.held = 65;
    assert_eq!(show(&bench.state, 2, &message), b"");
}

/// The name of a call, the call, and whether the channel is ready after it.
type Dropping = (&'static str, fn(&mut Bench), bool);

#[test]
fn what_drops_them() {
    let calls: [Dropping; 6] = [
        (
            "INIT_REQ",
            |bench| drop(bench.receive(2, &build::init_req(1, 0))),
            true,
        ),
        (
            "a higher major",
            |bench| drop(bench.receive(2, &build::init_req(2, 0))),
            false,
        ),
        (
            "major 0",
            |bench| drop(bench.receive(2, &build::init_req(0, 0))),
            false,
        ),
        ("close", |bench| drop(bench.close(2)), false),
        (
            "another type",
            |bench| drop(bench.receive(2, &build::ds(0x77, b""))),
            false,
        ),
        (
            "a bad REG_REQ",
            |bench| drop(bench.receive(2, &build::reg_req(9, 1, 0, b"x"))),
            false,
        ),
    ];
    for (name, call, ready) in calls {
        let mut bench = with_peer();
        bench.receive(1, &build::reg_req(7, 2, 3, b"sp\0")).unwrap();
        let last = bench.state.last;
        call(&mut bench);
        assert_eq!(bench.state.last, last + 1, "{name}");
        assert_eq!(bench.state.channels[2].ready, ready, "{name}");
        assert_eq!(registered(&bench, 2), [], "{name}");
        // The other channel keeps its own.
        assert_eq!(registered(&bench, 1), [(0, 7, 3)], "{name}");
        assert!(bench.state.is_sound());
        bench.receive(2, &build::init_req(1, 0)).unwrap();
        let reply = bench.receive(2, &build::data(7, b"late"));
        assert_eq!(reply, Ok(build::nack(7, 3)), "{name}");
        // And the id may be registered again.
        let reply = bench.receive(2, &build::reg_req(7, 2, 3, b"sp\0"));
        assert_eq!(reply, Ok(build::reg_ack(7, 3)), "{name}");
    }
}

#[test]
fn a_closed_channel_takes_none() {
    let mut bench = with_peer();
    let reply = bench.receive(3, &build::reg_req(1, 2, 0, b"sp\0"));
    assert_eq!(reply, Ok(vec![]));
    assert_eq!(last_words(&bench), (2 << 27 | 3 << 25, 1));
    assert_eq!(registered(&bench, 3), []);
}

#[test]
fn what_leaves_them() {
    let mut bench = with_peer();
    let before = bench.state.peers;
    bench.offer(2, 1).unwrap();
    bench.withdraw(2, 1).unwrap();
    bench.withdraw(2, 0).unwrap();
    bench.permit(2, true).unwrap();
    bench.close(1).unwrap();
    bench.drain();
    assert_eq!(bench.state.peers, before);
}

/// A removal's late reply goes under our handle, with its top bit.
#[test]
fn a_late_reply() {
    let mut bench = with_peer();
    let request = build::request(independent::memory::UNCONFIGURE, 9, &[A]);
    bench
        .receive(2, &build::data(build::ours(6), &request))
        .unwrap();
    assert_eq!(bench.state.removal.unwrap().handle, build::ours(6));
    bench.work(4).unwrap();
    let (_, reply) = bench.work(1).unwrap();
    assert_eq!(reply[8..16], hex("8000000000000006"));
}

/// Each cause of a duplicate comes before an id that is not listed and before
/// a version.
#[test]
fn duplicates_are_tested_first() {
    let bench = with_peer();
    let (peers, ids) = (&bench.state.peers[2], &bench.state.ids);
    for id in [b"sp\0".as_slice(), b"hypervisor\0", b"other\0", LONG] {
        for major in 0..4 {
            for handle in [7, 8, build::ours(9)] {
                let minor = 2;
                let asked = wire::RegReq {
                    handle,
                    major,
                    minor,
                    id,
                };
                let duplicate = id == b"sp\0" || handle != 8;
                let answer = judge(peers, ids, &asked);
                assert_eq!(answer == Answer::Duplicate, duplicate, "{asked:?}");
                if duplicate {
                    continue;
                }
                let expected = match (id, major) {
                    (b"other\0", _) | (_, 0) => Answer::Version { major: 0 },
                    (b"hypervisor\0", 1) => Answer::Acknowledged { place: 1, minor: 0 },
                    (_, 1) => Answer::Acknowledged { place: 2, minor },
                    _ => Answer::Version { major: 1 },
                };
                assert_eq!(answer, expected);
            }
        }
    }
}
