//! The calls permit and take: their lines, their refusals and soundness.

mod common;
use common::*;
use independent::lines::answer;
use independent::{build, drain, Order, State};

fn host(input: &str) -> String {
    String::from_utf8(answer(input.as_bytes())).unwrap()
}

fn receive(message: &[u8]) -> String {
    let digits: String = message.iter().map(|byte| format!("{byte:02x}")).collect();
    format!("receive 1 {digits}\n")
}

/// The lines of permissions and the order, and the one after them.
fn shown(list: &str) -> Vec<String> {
    let text = host(&format!("{list}state\n"));
    let lines: Vec<&str> = text.lines().collect();
    let from = lines.len() - 4;
    lines[from..].iter().map(|line| line.to_string()).collect()
}

/// Both services registered on channel 1, under handles 3 and 5, and permitted.
fn permitted() -> String {
    let mut list = "setup\n".to_string() + &receive(&build::init_req(1, 0));
    for (service, handle) in [(2, 3), (3, 5)] {
        list += &format!("offer 1 {service}\n");
        list += &receive(&build::reg_ack(build::ours(handle), 0));
    }
    list + "permit 2 1\npermit 3 1\n"
}

#[test]
fn lines_and_their_answers() {
    let shutdown = receive(&build::data(
        build::ours(3),
        &build::shutdown(1, 4_294_967_295),
    ));
    let panic = receive(&build::data(build::ours(5), &build::panic(1)));
    let calls = format!(
        "{}{shutdown}take\ntake\n{panic}take\npermit 1 1\n",
        permitted()
    );
    let text = host(&(calls + "permit 0x3 0\npermit 4 0\ndrain 256\n"));
    let lines: Vec<&str> = text.lines().skip(6).collect();
    let expected = [
        "permit accepted",
        "permit accepted",
        "receive accepted 00000009000000148000000000000003000000000000000100000000",
        "take accepted shutdown 4294967295",
        "take refused 6",
        "receive accepted 00000009000000148000000000000005000000000000000100000000",
        "take accepted panic",
        "permit refused 3",
        "permit accepted",
        "permit refused 3",
        "drain accepted 13",
        "entry 00000001f8000000 0000000000000000",
        "entry 000000020a000000 0000000000000000",
        "entry 0000000323000000 0000000000000000",
        "entry 000000042b000000 8000000000000003",
        "entry 0000000523800000 0000000000000000",
        "entry 000000062b800000 8000000000000005",
        "entry 0000000799010000 0000000000000000",
        "entry 0000000899810000 0000000000000000",
        "entry 00000009ab000000 00000000ffffffff",
        "entry 0000000aa0000000 0000000000000000",
        "entry 0000000bab800000 0000000000000000",
        "entry 0000000ca0000000 0000000000000000",
        "entry 0000000d99800000 0000000000000000",
    ];
    assert_eq!(lines, expected);
}

#[test]
fn what_the_state_shows() {
    let denied = ["permission 2 denied", "permission 3 denied", "order none"];
    assert_eq!(shown("")[..3], denied);
    assert_eq!(shown("setup\n")[..3], denied);
    let list = permitted();
    let state = |list: &str| shown(list)[..3].join(", ");
    let both = "permission 2 permitted, permission 3 permitted";
    assert_eq!(state(&list), format!("{both}, order none"));
    let shutdown = receive(&build::data(build::ours(3), &build::shutdown(1, 12)));
    let left = format!("{list}{shutdown}");
    assert_eq!(state(&left), format!("{both}, order shutdown 12"));
    assert_eq!(
        state(&format!("{left}permit 2 0\nclose 1\n")),
        "permission 2 denied, permission 3 permitted, order shutdown 12"
    );
    let panic = receive(&build::data(build::ours(5), &build::panic(1)));
    let left = format!("{list}{panic}permit 3 0\n");
    assert_eq!(
        state(&left),
        "permission 2 permitted, permission 3 denied, order panic"
    );
    assert_eq!(
        state(&format!("{left}take\n")),
        format!("permission 2 permitted, permission 3 denied, order none")
    );
    // A setup begins anew, a refused one too.
    for again in ["setup\n", "setup 1\n"] {
        assert_eq!(shown(&format!("{left}{again}"))[..3], denied);
    }
    assert_eq!(shown("setup\npermit 3 1\n")[3], "entries 2");
    // Before a setup nothing is permitted.
    assert_eq!(
        host("permit 3 1\ntake\n"),
        "permit refused 8\ntake refused 8\n"
    );
    assert_eq!(shown("permit 3 1\n")[..3], denied);
}

#[test]
fn bad_lines() {
    for line in [
        "permit",
        "permit 2",
        "permit 2 ",
        "permit 2 2",
        "permit 2 0x2",
        "permit 2 18446744073709551615",
        "permit 2 18446744073709551616",
        "permit 2 -1",
        "permit 2 1 1",
        "permit 2  1",
        "permit x 1",
        "permit 18446744073709551616 1",
        "Permit 2 1",
        "permit 2 1 ",
        "take ",
        "take 1",
        "Take",
        " take",
    ] {
        let expected = "setup accepted\nbad line 2\npermit accepted\n";
        let list = format!("setup\n{line}\npermit 2 1");
        assert_eq!(host(&list), expected, "{line}");
    }
    for line in [
        "permit 0x2 0x1",
        "permit 002 01",
        "permit 2 0x0",
        "permit 3 000",
    ] {
        let list = format!("setup\n{line}");
        assert_eq!(host(&list), "setup accepted\npermit accepted\n");
    }
    // A service past 64 bits is a bad line; one in 64 bits is refused.
    assert_eq!(
        host("setup\npermit 18446744073709551615 0"),
        "setup accepted\npermit refused 3\n"
    );
}

/// The state before a refusal is the state after it, and no buffer changes.
fn refused(bench: &Bench, permit: u64, take: u64) {
    let mut tried = bench.clone();
    assert_eq!(tried.permit(2, true), Err(permit));
    assert_eq!(tried.permit(3, false), Err(permit));
    assert_eq!(tried.take(), Err(take));
    assert_eq!(tried, *bench);
}

#[test]
fn refusals_in_order() {
    let mut bench = Bench::new(&[]);
    // Nothing waits: 6 for take, and last of all.
    assert_eq!(bench.take(), Err(6));
    bench.state.last = 4_294_967_295;
    refused(&bench, 5, 5);
    bench.state.held = 64;
    refused(&bench, 4, 4);
    assert_eq!(bench.clone().permit(1, true), Err(3));
    bench.out.truncate(2591);
    refused(&bench, 2, 2);
    assert_eq!(bench.clone().permit(1, true), Err(2));
    bench.journal.truncate(127);
    refused(&bench, 1, 1);
    assert_eq!(bench.clone().permit(1, true), Err(1));
    bench.state.held = 65;
    refused(&bench, 8, 8);
    assert_eq!(bench.clone().permit(1, true), Err(8));
}

#[test]
fn every_service() {
    let mut bench = Bench::new(&[]);
    let before = bench.clone();
    let refused = [
        0,
        1,
        4,
        5,
        6,
        7,
        1 << 32,
        1 << 32 | 2,
        1 << 63 | 3,
        u64::MAX,
    ];
    for service in refused {
        assert_eq!(bench.permit(service, true), Err(3));
        assert_eq!(bench.permit(service, false), Err(3));
    }
    assert_eq!(bench, before);
}

#[test]
fn set_twice() {
    let mut bench = Bench::new(&[]);
    // An entry each time.
    for (service, permitted) in [(2, true), (2, true), (3, true), (2, false), (2, false)] {
        assert_eq!(bench.permit(service, permitted), Ok(vec![]));
    }
    assert_eq!(bench.state.orders.permitted, [false, true]);
    let codes: Vec<u64> = bench
        .drain()
        .iter()
        .skip(1) // setup's own
        .map(|(first, _)| first & 0xffff_ffff)
        .collect();
    let entry = |service: u64, code: u64| 19 << 27 | service << 23 | code << 16;
    let expected = [
        entry(2, 1),
        entry(2, 1),
        entry(3, 1),
        entry(2, 0),
        entry(2, 0),
    ];
    assert_eq!(codes, expected);
}

#[test]
fn the_last_place_and_number() {
    let mut bench = Bench::new(&[]);
    bench.state.orders.waiting = Some(Order::Panic);
    bench.state.last = 4_294_967_293;
    bench.state.held = 62;
    bench.permit(3, true).unwrap();
    assert_eq!(bench.take(), Ok(Order::Panic));
    assert_eq!(bench.state.held, 64);
    // Slots 61 and 62 of 0 to 63.
    let entries = [4_294_967_294 << 32 | 19 << 27 | 3 << 23 | 1 << 16, 0];
    assert_eq!(bench.journal[122..124], entries);
    assert_eq!(bench.journal[124..126], [4_294_967_295 << 32 | 20 << 27, 0]);
    assert_eq!(bench.permit(3, true), Err(4));
    bench.drain();
    assert_eq!(bench.permit(3, true), Err(5));
    assert_eq!(bench.take(), Err(5));
}

#[test]
fn a_delay_past_32_bits_is_unsound() {
    let of_delay = |delay| State {
        orders: independent::Orders {
            waiting: Some(Order::Shutdown { delay }),
            ..Default::default()
        },
        last: 1,
        ..State::default()
    };
    for delay in [0, 1, 4_294_967_295] {
        let mut bench = Bench::new(&[]);
        bench.state = of_delay(delay);
        assert!(bench.state.is_sound());
        assert_eq!(bench.take(), Ok(Order::Shutdown { delay }));
        assert_eq!(bench.state.orders, Default::default());
    }
    for delay in [4_294_967_296, 1 << 63, u64::MAX] {
        let mut bench = Bench::new(&[]);
        bench.state = of_delay(delay);
        assert!(!bench.state.is_sound());
        refused(&bench, 8, 8);
        assert_eq!(bench.receive(0, &build::init_req(1, 0)), Err(8));
        assert_eq!(drain(&mut bench.state, &bench.journal, &mut []), Err(8));
    }
}
