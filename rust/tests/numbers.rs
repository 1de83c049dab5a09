//! Request numbers must rise: from one registration of `dr-mem` to its end.

mod common;
use common::*;
use independent::lines::answer;
use independent::{build, memory, Pair};

const REQUESTS: [(u32, &[Pair]); 5] = [
    (memory::CONFIGURE, &[A]),
    (memory::UNCONFIGURE, &[D]),
    (memory::QUERY, &[A]),
    (memory::UNCONF_STATUS, &[]),
    (memory::CANCEL, &[]),
];

fn ok_or_error(memory_type: u32, number: u64) -> Vec<u8> {
    [
        [memory_type, 0].map(u32::to_be_bytes).concat(),
        number.to_be_bytes().to_vec(),
    ]
    .concat()
}

/// CANCEL with nothing outstanding: whether its number was accepted.
fn accepts(bench: &mut Bench, number: u64) -> bool {
    let reply = bench.ask(&build::request(memory::CANCEL, number, &[]));
    let accepted = reply == ok_or_error(memory::OK, number);
    assert!(accepted || reply == ok_or_error(memory::ERROR, number));
    let code = u64::from(!accepted);
    assert_eq!(bench.last_entry(), (10, 0, code, 0, number));
    accepted
}

#[test]
fn a_number_must_be_above_the_highest() {
    let mut bench = Bench::with_memory();
    for (number, accepted) in [
        (5, true),
        (5, false),
        (4, false),
        (0, false),
        (6, true),
        (5, false),
        (1 << 32, true),
        (1 << 32 | 1, true),
        (7, false),
        (u64::MAX - 1, true),
        (u64::MAX, true),
        (u64::MAX, false),
        (0, false),
    ] {
        assert_eq!(accepts(&mut bench, number), accepted, "{number}");
    }
}

#[test]
fn every_request_is_refused_and_changes_nothing() {
    for outstanding in [false, true] {
        for (memory_type, pairs) in REQUESTS {
            for number in [20, 19, 0] {
                let mut bench = Bench::with_memory();
                if outstanding {
                    bench.unconfigure(&[A]);
                }
                assert_eq!(
                    bench.ask(&build::request(memory::CANCEL, 20, &[])).len(),
                    16
                );
                let before = bench.state;
                let reply = bench.ask(&build::request(memory_type, number, pairs));
                // While a removal is outstanding too: not BLOCKED.
                assert_eq!(reply, ok_or_error(memory::ERROR, number));
                assert_eq!(bench.last_entry(), (10, 0, 1, 0, number));
                bench.state.last -= 1;
                bench.state.held -= 1;
                assert_eq!(bench.state, before);
            }
        }
    }
}

#[test]
fn every_request_counts() {
    for outstanding in [false, true] {
        for (memory_type, pairs) in REQUESTS {
            let mut bench = Bench::with_memory();
            if outstanding {
                bench.unconfigure(&[A]);
            }
            // Also those that a removal blocks, or that have nothing to do.
            bench.ask(&build::request(memory_type, 20, pairs));
            assert_eq!(bench.state.highest, [None, None, Some(20), None]);
            let query = build::request(memory::QUERY, 20, &[A]);
            assert_eq!(bench.ask(&query), ok_or_error(memory::ERROR, 20));
            let query = build::request(memory::QUERY, 21, &[A]);
            assert_eq!(bench.ask(&query)[..4], memory::OK.to_be_bytes());
        }
    }
}

#[test]
fn what_is_answered_error_does_not_count() {
    let mut bench = Bench::with_memory();
    let spoilt = |bench: &mut Bench| {
        let number = u64::MAX;
        for message in [
            build::memory(memory::QUERY, 2, number, &[A]),
            build::memory(memory::CANCEL, 1, number, &[]),
            build::memory(0x4d44, 0, number, &[]),
        ] {
            assert_eq!(bench.ask(&message), ok_or_error(memory::ERROR, number));
        }
        assert_eq!(bench.ask(&[0xff; 15]), ok_or_error(memory::ERROR, 0));
    };
    // A bad form is not the first request, and not the highest later.
    spoilt(&mut bench);
    assert!(accepts(&mut bench, 0));
    spoilt(&mut bench);
    assert!(accepts(&mut bench, 1));
    // The form is tested first, with any number.
    let low = build::memory(memory::QUERY, 2, 0, &[A]);
    assert_eq!(bench.ask(&low), ok_or_error(memory::ERROR, 0));
    assert!(!accepts(&mut bench, 0));
    assert!(accepts(&mut bench, 2));
}

/// Offers `dr-mem` on channel 2 and registers it; gives its handle.
fn register(bench: &mut Bench) -> u64 {
    bench.offer(2, 0).unwrap();
    let handle = build::ours(bench.state.last);
    bench.receive(2, &build::reg_ack(handle, 0)).unwrap();
    handle
}

/// Whether CANCEL under this handle on this channel is answered OK.
fn accepts_at(bench: &mut Bench, channel: u64, handle: u64, number: u64) -> bool {
    let cancel = build::request(memory::CANCEL, number, &[]);
    let reply = bench.receive(channel, &build::data(handle, &cancel));
    reply.unwrap()[16..20] == memory::OK.to_be_bytes()
}

#[test]
fn a_new_registration_begins_anew() {
    type End = fn(&mut Bench);
    let ends: [End; 4] = [
        |bench| assert!(bench.withdraw(2, 0).is_ok()),
        |bench| {
            assert!(bench
                .receive(2, &build::of_handle(6, build::ours(3)))
                .is_ok())
        },
        |bench| assert!(bench.receive(2, &build::init_req(1, 0)).is_ok()),
        |bench| {
            bench.close(2).unwrap();
            bench.receive(2, &build::init_req(1, 0)).unwrap();
        },
    ];
    for end in ends {
        for first in [0, 1, 50, u64::MAX] {
            let mut bench = Bench::with_memory();
            assert!(accepts(&mut bench, u64::MAX));
            end(&mut bench);
            let handle = register(&mut bench);
            assert!(accepts_at(&mut bench, 2, handle, first));
            assert!(!accepts_at(&mut bench, 2, handle, first));
            let next = first.checked_add(1);
            assert!(next.is_none_or(|next| accepts_at(&mut bench, 2, handle, next)));
        }
    }
}

#[test]
fn only_its_own_reg_ack_begins_anew() {
    let mut bench = Bench::with_memory();
    assert!(accepts(&mut bench, 7));
    // Noted: the handle is registered already, or is none.
    for handle in [2, 3, 2 | 1 << 32].map(build::ours) {
        bench.receive(2, &build::reg_ack(handle, 0)).unwrap();
        assert!(!accepts(&mut bench, 7));
    }
    // Another service, and `dr-mem` on another channel.
    bench.offer(2, 2).unwrap();
    let other = build::ours(bench.state.last);
    bench.receive(2, &build::reg_ack(other, 0)).unwrap();
    assert!(!accepts(&mut bench, 7));
    bench.receive(1, &build::init_req(1, 0)).unwrap();
    bench.offer(1, 0).unwrap();
    let elsewhere = build::ours(bench.state.last);
    bench.receive(1, &build::reg_ack(elsewhere, 0)).unwrap();
    assert!(!accepts(&mut bench, 7));
    // Each channel has its own highest number.
    assert!(accepts_at(&mut bench, 1, elsewhere, 3));
    assert!(!accepts_at(&mut bench, 1, elsewhere, 3));
    assert!(accepts(&mut bench, 8));
    assert!(accepts_at(&mut bench, 1, elsewhere, 4));
    // The number of another service's data is none of a memory request.
    let cancel = build::request(memory::CANCEL, 100, &[]);
    assert!(bench.receive(2, &build::data(other, &cancel)).is_ok());
    assert!(accepts(&mut bench, 9));
}

#[test]
fn a_refused_call_moves_no_number() {
    let mut bench = Bench::with_memory();
    assert!(accepts(&mut bench, 1));
    bench.out.truncate(2591);
    let before = bench.clone();
    let cancel = build::data(build::ours(3), &build::request(memory::CANCEL, 5, &[]));
    assert_eq!(bench.receive(2, &cancel), Err(2));
    assert_eq!(bench, before);
    bench.out.push(0xee);
    assert!(accepts(&mut bench, 2));
}

#[test]
fn a_removal_keeps_its_number() {
    let mut bench = Bench::with_memory();
    bench.unconfigure(&[D]);
    assert_eq!(
        bench.ask(&build::request(memory::QUERY, 50, &[A])).len(),
        56
    );
    // Refused for its number: the removal goes on.
    let cancel = build::request(memory::CANCEL, 9, &[]);
    assert_eq!(bench.ask(&cancel), ok_or_error(memory::ERROR, 9));
    bench.work(2).unwrap();
    let (_, reply) = bench.work(1).unwrap();
    assert_eq!(reply[24..32], 9u64.to_be_bytes());
    assert_eq!(results(&reply[16..]), [(0, 1)]);
    assert_eq!(bench.last_entry(), (16, 0, 0, 1, 9));
}

#[test]
fn the_state_line_does_not_write_it() {
    let list = |number: u64| {
        let cancel = build::data(build::ours(3), &build::request(memory::CANCEL, number, &[]));
        let digits: String = cancel.iter().map(|byte| format!("{byte:02x}")).collect();
        format!(
            "setup\nreceive 2 000000000000000400010000\noffer 2 0\n\
             receive 2 000000040000000a80000000000000030000\nreceive 2 {digits}\nstate\n"
        )
    };
    let state = |number| {
        let answer = String::from_utf8(answer(list(number).as_bytes())).unwrap();
        let lines: Vec<String> = answer.lines().skip(5).map(str::to_string).collect();
        lines
    };
    assert_eq!(state(1), state(2));
    assert_eq!(state(1).len(), 9);
}
