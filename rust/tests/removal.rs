//! CONFIGURE, UNCONFIGURE, STATUS and CANCEL, stage by stage.

mod common;
use common::*;
use independent::{build, memory};

fn status(bench: &mut Bench) -> Vec<u8> {
    let reply = bench.request(memory::UNCONF_STATUS, &[]);
    assert_eq!(bench.last_entry(), (10, 0, 0, 0, bench.number));
    assert_eq!(reply[..4], [0, 0, 0, 0x6f]);
    reply[7..8].iter().chain(&reply[16..]).copied().collect()
}

fn open(total: u64, collected: u64) -> Vec<u8> {
    [
        vec![1],
        total.to_be_bytes().to_vec(),
        collected.to_be_bytes().to_vec(),
    ]
    .concat()
}

#[test]
fn configure_in_order() {
    let mut bench = Bench::with_memory();
    let reply = bench.request(memory::CONFIGURE, &[A, C, UNKNOWN, D]);
    assert_eq!(results(&reply), [(4, 2), (0, 2), (1, 0), (1, 2)]);
    assert_eq!(bench.last_entry(), (11, 0, 0, 0, 0b100));
    let reply = bench.request(memory::CONFIGURE, &[UNKNOWN, C]);
    assert_eq!(results(&reply), [(1, 0), (1, 2)]);
    assert_eq!(bench.last_entry(), (10, 0, 0, 0, 10));
}

#[test]
fn each_result_of_a_removal() {
    let mut bench = Bench::with_memory();
    bench.unconfigure(&[C, A, B, D, UNKNOWN]);
    assert_eq!(bench.last_entry(), (12, 0, 0, 5, 9));
    assert_eq!(bench.work(7), Ok((0, vec![])));
    assert_eq!(bench.last_entry(), (15, 0, 4, 0, 2));
    assert_eq!(bench.work(65_535), Ok((4, vec![])));
    assert_eq!(bench.last_entry(), (15, 0, 0, 4, 1 << 6));
    let (pages, reply) = bench.work(1).unwrap();
    assert_eq!(
        (pages, results(&reply[16..])),
        (0, vec![(4, 1), (0, 1), (5, 2), (1, 2), (1, 0)])
    );
    assert_eq!(bench.last_entry(), (16, 0, 5, 1, 9));
    assert_eq!(bench.work(1), Err(6));
}

#[test]
fn an_unknown_record_ends_it() {
    let mut bench = Bench::with_memory();
    bench.unconfigure(&[UNKNOWN, A]);
    assert_eq!(status(&mut bench), open(UNKNOWN.size, 0));
    let (_, reply) = bench.work(1).unwrap();
    assert_eq!(results(&reply[16..]), [(1, 0), (1, 2)]);
    assert_eq!(bench.last_entry(), (16, 0, 1, 1, 9));
}

#[test]
fn status_at_each_stage() {
    let mut bench = Bench::with_memory();
    assert_eq!(status(&mut bench), [0]);
    bench.unconfigure(&[A, C]);
    assert_eq!(status(&mut bench), open(0x8000, 0));
    bench.work(3).unwrap();
    assert_eq!(status(&mut bench), open(0x8000, 0x6000));
    bench.work(1).unwrap();
    assert_eq!(status(&mut bench), open(0x6000, 0));
    bench.work(1).unwrap();
    assert_eq!(status(&mut bench), open(0, 0));
    bench.work(1).unwrap();
    assert_eq!(status(&mut bench), [0]);
}

#[test]
fn cancel_at_each_stage() {
    let ok = |number: u64| hex(&format!("0000006f 00000000 {number:016x}"));
    for steps in 0..5 {
        let mut bench = Bench::with_memory();
        assert_eq!(bench.cancel(), ok(9));
        assert_eq!(bench.last_entry(), (10, 0, 0, 0, 9));
        bench.unconfigure(&[A, C, D]);
        for _ in 0..steps {
            bench.work(2).unwrap();
        }
        assert_eq!(bench.cancel(), ok(11));
        assert_eq!(bench.last_entry(), (13, 0, 0, 0, 11));
        let marked = bench.state.removal.unwrap();
        assert!(marked.cancelled && marked.collected == 0);
        assert_eq!(bench.cancel(), ok(12));
        assert_eq!(bench.last_entry(), (10, 0, 0, 0, 12));
        assert_eq!(bench.state.removal, Some(marked));
        let (pages, reply) = bench.work(1).unwrap();
        assert_eq!(bench.last_entry(), (16, 0, 3, 1, 10));
        let all = match steps {
            0 | 1 => [(3, 2), (3, 1), (3, 2)],
            2 => [(0, 1), (3, 1), (3, 2)],
            3 => [(0, 1), (4, 1), (3, 2)],
            _ => [(0, 1), (4, 1), (0, 1)],
        };
        assert_eq!((pages, results(&reply[16..])), (0, all.to_vec()));
    }
}

#[test]
fn blocked_while_outstanding() {
    let mut bench = Bench::with_memory();
    bench.unconfigure(&[A]);
    for memory_type in [memory::CONFIGURE, memory::UNCONFIGURE] {
        let reply = bench.request(memory_type, &[C, UNKNOWN, D]);
        assert_eq!(results(&reply), [(2, 1), (2, 0), (2, 2)]);
        assert_eq!(bench.last_entry(), (10, 0, 2, 0, bench.number));
    }
    assert!(!bench.state.blocks.list[2].configured);
}

#[test]
fn bad_memory_messages() {
    let mut bench = Bench::with_memory();
    let error = |request: u64| {
        let request = request.to_be_bytes();
        [hex("00000065 00000000").as_slice(), &request].concat()
    };
    let long = |message: &[u8]| [message, &[0]].concat();
    let good = build::request(memory::QUERY, 5, &[A]);
    for message in [
        build::memory(memory::CONFIGURE, 2, 5, &[A]),
        build::memory(memory::UNCONFIGURE, 0x0001_0001, 5, &[A]),
        build::memory(memory::UNCONF_STATUS, 1, 5, &[]),
        build::memory(memory::CANCEL, 0, 5, &[A]),
        build::memory(0x4d44, 0, 5, &[]),
        long(&good),
        good[..31].to_vec(),
    ] {
        assert_eq!(bench.ask(&message), error(5), "{message:x?}");
        assert_eq!(bench.last_entry(), (10, 0, 1, 0, 5));
    }
    assert_eq!(bench.ask(&good[..15]), error(0));
    assert_eq!(bench.ask(&[]), error(0));
    assert_eq!(bench.last_entry(), (10, 0, 1, 0, 0));
    assert_eq!(bench.ask(&good[..16]), error(5));
}

#[test]
fn a_removal_goes_on_without_its_channel() {
    type Disturb = fn(&mut Bench);
    let disturbances: [Disturb; 5] = [
        |bench| assert!(bench.close(2).is_ok()),
        |bench| assert!(bench.receive(2, &build::init_req(1, 0)).is_ok()),
        |bench| assert!(bench.receive(2, &build::init_req(2, 0)).is_ok()),
        |bench| assert!(bench.withdraw(2, 0).is_ok()),
        |bench| {
            assert!(bench
                .receive(2, &build::of_handle(6, build::ours(3)))
                .is_ok())
        },
    ];
    for disturb in disturbances {
        let mut bench = Bench::with_memory();
        bench.unconfigure(&[A]);
        bench.work(3).unwrap();
        disturb(&mut bench);
        assert_eq!(bench.work(9), Ok((1, vec![])));
        // A newer handle on the same channel and service gets no late reply.
        bench.receive(2, &build::init_req(1, 0)).unwrap();
        bench.offer(2, 0).unwrap();
        let newer = build::ours(bench.state.last);
        bench.receive(2, &build::reg_ack(newer, 0)).unwrap();
        assert_eq!(bench.work(1), Ok((0, vec![])));
        assert_eq!(bench.last_entry(), (16, 0, 0, 0, 9));
    }
}
