//! The services `domain-shutdown` and `domain-panic`: worked examples of ticket
//! 6, each reply written out by hand from sections 3.2 and 3.3 of source
//! document 003.

mod common;
use common::*;
use independent::{build, show, Order};

/// Channel 1 ready, `domain-shutdown` registered there under handle 3 and
/// `domain-panic` under handle 5; six entries are used.
fn with_orders() -> Bench {
    let mut bench = Bench::new(&BLOCK_LIST);
    bench.receive(1, &build::init_req(1, 0)).unwrap();
    for (service, handle) in [(2, 3), (3, 5)] {
        bench.offer(1, service).unwrap();
        bench
            .receive(1, &build::reg_ack(build::ours(handle), 0))
            .unwrap();
    }
    bench
}

/// The last entry without its number, and its second word.
fn last_entry(bench: &Bench) -> (u64, u64) {
    let at = ((bench.state.last - 1) % 64 * 2) as usize;
    assert_eq!(bench.journal[at] >> 32, bench.state.last);
    (bench.journal[at] & 0xffff_ffff, bench.journal[at + 1])
}

/// The first word of kind 21 on channel 1, without its number.
const fn answered(service: u64, result: u64) -> u64 {
    21 << 27 | 1 << 25 | service << 23 | result << 16
}

/// A call by the host, or a request with its handle (the top bit left out), its data, the whole reply,
/// and service, result and w of its entry.
enum Step {
    Permit(u64, bool),
    Take(Order),
    Ask(u64, &'static str, &'static str, [u64; 3]),
}

use Step::{Ask, Permit, Take};

#[rustfmt::skip]
const BY_HAND: [Step; 25] = [
    // Denied until set.
    Ask(3, "0000000000000001 000003e8", "00000009 0000001b 8000000000000003 0000000000000001 00000001 64656e69656400", [2, 1, 0]),
    Ask(5, "0000000000000002", "00000009 0000001b 8000000000000005 0000000000000002 00000001 64656e69656400", [3, 1, 0]),
    // One service permitted: the other stays denied.
    Permit(2, true),
    Ask(5, "0000000000000002", "00000009 0000001b 8000000000000005 0000000000000002 00000001 64656e69656400", [3, 1, 0]),
    Ask(3, "0000000000000003 000003e8", "00000009 00000014 8000000000000003 0000000000000003 00000000", [2, 0, 1_000]),
    // A second one, and one of the other service, while the order waits.
    Ask(3, "0000000000000003 000003e8", "00000009 0000001c 8000000000000003 0000000000000003 00000001 70656e64696e6700", [2, 1, 0]),
    Permit(3, true),
    Ask(5, "ffffffffffffffff", "00000009 0000001c 8000000000000005 ffffffffffffffff 00000001 70656e64696e6700", [3, 1, 0]),
    // Denied is tested before pending.
    Permit(2, false),
    Ask(3, "0000000000000005 00000000", "00000009 0000001b 8000000000000003 0000000000000005 00000001 64656e69656400", [2, 1, 0]),
    // A wrong length before both.
    Ask(3, "0000000000000005", "00000009 00000014 8000000000000003 0000000000000005 00000002", [2, 2, 0]),
    Ask(5, "0000000000000005 000003e8", "00000009 00000014 8000000000000005 0000000000000005 00000002", [3, 2, 0]),
    // Under 8 bytes the number is 0.
    Ask(3, "05060708090a0b", "00000009 00000014 8000000000000003 0000000000000000 00000002", [2, 2, 0]),
    Ask(5, "", "00000009 00000014 8000000000000005 0000000000000000 00000002", [3, 2, 0]),
    // The order is as it was left, though its service is denied now.
    Take(Order::Shutdown { delay: 1_000 }),
    // Panic, and a request of each while it waits.
    Ask(5, "0000000000000000", "00000009 00000014 8000000000000005 0000000000000000 00000000", [3, 0, 0]),
    Ask(5, "0000000000000001", "00000009 0000001c 8000000000000005 0000000000000001 00000001 70656e64696e6700", [3, 1, 0]),
    Permit(2, true),
    Ask(3, "0000000000000001 00000001", "00000009 0000001c 8000000000000003 0000000000000001 00000001 70656e64696e6700", [2, 1, 0]),
    Take(Order::Panic),
    // The shortest and the longest delay.
    Ask(3, "0000000000000007 00000000", "00000009 00000014 8000000000000003 0000000000000007 00000000", [2, 0, 0]),
    Take(Order::Shutdown { delay: 0 }),
    Ask(3, "0000000000000007 ffffffff", "00000009 00000014 8000000000000003 0000000000000007 00000000", [2, 0, 4_294_967_295]),
    Take(Order::Shutdown { delay: 4_294_967_295 }),
    Permit(3, false),
];

#[test]
fn replies_by_hand() {
    let mut bench = with_orders();
    for (number, step) in BY_HAND.iter().enumerate() {
        match *step {
            Permit(service, permitted) => {
                assert_eq!(bench.permit(service, permitted), Ok(vec![]));
                let first = 19 << 27 | service << 23 | u64::from(permitted) << 16;
                assert_eq!(last_entry(&bench), (first, 0));
            }
            Take(order) => {
                assert_eq!(bench.take(), Ok(order), "step {number}");
                assert_eq!(last_entry(&bench), (20 << 27, 0));
                assert_eq!(bench.take(), Err(6));
            }
            Ask(handle, data, reply, [service, result, delay]) => {
                let message = build::data(build::ours(handle), &hex(data));
                assert_eq!(show(&bench.state, 1, &message), b"");
                let got = bench.receive(1, &message);
                assert_eq!(got, Ok(hex(reply)), "step {number}");
                assert_eq!(last_entry(&bench), (answered(service, result), delay));
            }
        }
    }
}

/// The number of the requests of wrong length.
const NUMBER: u64 = 0x0102_0304_0506_0708;

#[test]
fn every_length() {
    let long = [
        &NUMBER.to_be_bytes()[..],
        &[0x77; 4_088 - 8], // the longest data that there is
    ];
    let long = long.concat();
    for (number, service, right) in [(3, 2, 12), (5, 3, 8)] {
        let handle = build::ours(number);
        for permitted in [false, true] {
            for length in (0..=40).chain([4_088]).filter(|length| *length != right) {
                let mut bench = with_orders();
                bench.permit(service, permitted).unwrap();
                let before = bench.state.orders;
                let reply = bench.receive(1, &build::data(handle, &long[..length]));
                let number = if length < 8 { 0 } else { NUMBER };
                let expected = [number.to_be_bytes().to_vec(), hex("00000002")].concat();
                assert_eq!(reply, Ok(build::data(handle, &expected)), "{length}");
                assert_eq!(last_entry(&bench), (answered(service, 2), 0));
                assert_eq!(bench.state.orders, before);
            }
        }
    }
}

#[test]
fn orders_stay_when_services_end() {
    for (number, data) in [(3, build::shutdown(1, 5)), (5, build::panic(1))] {
        let handle = build::ours(number);
        let mut bench = with_orders();
        bench.permit(2, true).unwrap();
        bench.permit(3, true).unwrap();
        bench.receive(1, &build::data(handle, &data)).unwrap();
        let left = bench.state.orders;
        assert!(left.waiting.is_some());
        bench.withdraw(1, 2).unwrap();
        bench
            .receive(1, &build::of_handle(6, build::ours(5)))
            .unwrap();
        bench.receive(1, &build::init_req(1, 0)).unwrap();
        bench.receive(1, &build::init_req(2, 0)).unwrap();
        bench.close(1).unwrap();
        bench.receive(1, &build::ds(0x77, b"")).unwrap();
        assert_eq!(bench.state.orders, left);
        // The handles are gone with their services.
        bench.receive(1, &build::init_req(1, 0)).unwrap();
        let reply = bench.receive(1, &build::data(handle, &data));
        assert_eq!(reply, Ok(build::nack(handle, 3)));
        assert_eq!(bench.take(), Ok(left.waiting.unwrap()));
        assert_eq!(bench.state.orders.permitted, [true, true]);
    }
}

#[test]
fn one_order_for_all_channels() {
    let mut bench = with_orders();
    bench.receive(3, &build::init_req(1, 0)).unwrap();
    bench.offer(3, 3).unwrap();
    let elsewhere = build::ours(bench.state.last);
    bench.receive(3, &build::reg_ack(elsewhere, 0)).unwrap();
    bench.permit(2, true).unwrap();
    bench.permit(3, true).unwrap();
    let request = build::data(elsewhere, &build::panic(9));
    let reply = bench.receive(3, &request).unwrap();
    assert_eq!(reply[16..], hex("0000000000000009 00000000"));
    let first = 21 << 27 | 3 << 25 | 3 << 23;
    assert_eq!(last_entry(&bench), (first, 0));
    let reply = bench.receive(1, &build::data(build::ours(3), &build::shutdown(8, 1)));
    let pending = hex("0000000000000008 00000001 70656e64696e6700");
    assert_eq!(reply, Ok(build::data(build::ours(3), &pending)));
    // The handle of channel 3 is not one of channel 1.
    assert_eq!(bench.receive(1, &request), Ok(build::nack(elsewhere, 3)));
    assert_eq!(bench.take(), Ok(Order::Panic));
}

#[test]
fn offered_is_not_registered() {
    let mut bench = Bench::new(&[]);
    bench.receive(0, &build::init_req(1, 0)).unwrap();
    bench.offer(0, 3).unwrap();
    bench.permit(3, true).unwrap();
    let reply = bench.receive(0, &build::data(build::ours(3), &build::panic(1)));
    assert_eq!(reply, Ok(build::nack(build::ours(3), 3)));
    assert_eq!(bench.take(), Err(6));
}

#[test]
fn a_removal_and_devices_are_left_alone() {
    let mut bench = Bench::with_memory();
    bench.unconfigure(&[A]);
    bench.offer(2, 2).unwrap();
    let handle = build::ours(bench.state.last);
    bench.receive(2, &build::reg_ack(handle, 0)).unwrap();
    bench.permit(2, true).unwrap();
    let mut expected = bench.clone();
    let request = build::data(handle, &build::shutdown(1, 77));
    bench.receive(2, &request).unwrap();
    expected.state.orders.waiting = Some(Order::Shutdown { delay: 77 });
    expected.state.last += 1;
    expected.state.held += 1;
    assert_eq!(bench.state, expected.state);
    // The removal goes on, and the order stays.
    bench.work(4).unwrap();
    bench.work(1).unwrap();
    assert_eq!(bench.take(), Ok(Order::Shutdown { delay: 77 }));
}
