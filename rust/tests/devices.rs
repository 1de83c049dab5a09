//! The service `dr-vio`: worked examples of ticket 1, each reply written out
//! by hand from source document 000.

mod common;
use common::*;
use independent::device::service::*;
use independent::lines::DeviceLine;
use independent::{build, memory, setup, show, wire, State};

fn words(id: u64, configured: u64, busy: u64, name: &[u8]) -> [u64; 36] {
    let name = name.to_vec();
    DeviceLine {
        id,
        configured,
        busy,
        name,
    }
    .words()
}

/// disk: 7, configured, idle. net: 7, configured, busy. disk: 8, unconfigured,
/// busy. The name that is its zero alone: 9, unconfigured, idle.
fn device_list() -> Vec<u64> {
    [
        words(7, 1, 0, b"disk\0"),
        words(7, 1, 1, b"net\0"),
        words(8, 0, 1, b"disk\0"),
        words(9, 0, 0, b"\0"),
    ]
    .concat()
}

/// Channel 2 ready, `dr-mem` registered there under handle 2 and `dr-vio`
/// under handle 4; six entries are used.
fn with_devices(devices: &[u64]) -> Bench {
    let mut bench = Bench::with_memory();
    bench.state = State {
        devices: setup(&[], devices, &[], &mut [0; 128]).unwrap().devices,
        ..bench.state
    };
    bench.offer(2, 1).unwrap();
    bench
        .receive(2, &build::reg_ack(build::ours(5), 0))
        .unwrap();
    bench
}

/// What a request gets: the whole reply, and its entry without the number.
fn ask(bench: &mut Bench, data: &[u8]) -> (Vec<u8>, u64, u64) {
    let before = *bench
        .state
        .devices
        .listed()
        .first()
        .unwrap_or(&Default::default());
    let reply = bench
        .receive(2, &build::data(build::ours(5), data))
        .unwrap();
    let at = ((bench.state.last - 1) % 64 * 2) as usize;
    assert_eq!(bench.journal[at] >> 32, bench.state.last);
    // The busy mark, id and name never change.
    let after = *bench
        .state
        .devices
        .listed()
        .first()
        .unwrap_or(&Default::default());
    let configured = after.configured;
    assert_eq!(
        independent::Device {
            configured,
            ..before
        },
        after
    );
    bench.drain();
    (
        reply,
        bench.journal[at] & 0xffff_ffff,
        bench.journal[at + 1],
    )
}

/// The bytes before the request number: DATA, 25 bytes, handle 4 with its top bit.
const START: &str = "00000009 00000019 8000000000000005";

/// A request, the reply after its first 16 bytes, the code and place of its
/// entry of kind 18, and w.
type Row = (&'static str, &'static str, u64, u64, u64);

#[rustfmt::skip]
const BY_HAND: [Row; 10] = [
    // STATUS of disk 7: OK, configured.
    ("0000000000000001 0000000000000007 00494f53 6469736b00", "0000000000000001 00000000 00000002 00", 0, 0, 1),
    // UNCONFIGURE of it: OK, unconfigured; then again; STATUS.
    ("0000000000000002 0000000000000007 00494f55 6469736b00", "0000000000000002 00000000 00000001 00", 0, 0, 0),
    ("0000000000000003 0000000000000007 00494f55 6469736b00", "0000000000000003 00000000 00000001 00", 0, 0, 0),
    ("0000000000000004 0000000000000007 00494f53 6469736b00", "0000000000000004 00000000 00000001 00", 0, 0, 0),
    // UNCONFIGURE of net 7, which is busy: BLOCKED, configured; forced: OK.
    ("0000000000000005 0000000000000007 00494f55 6e657400", "0000000000000005 00000002 00000002 00", 2, 1, 1),
    ("0000000000000006 0000000000000007 00494f46 6e657400", "0000000000000006 00000000 00000001 00", 0, 1, 0),
    // As asked already, before busy: UNCONFIGURE of a busy device is OK.
    ("0000000000000007 0000000000000007 00494f55 6e657400", "0000000000000007 00000000 00000001 00", 0, 1, 0),
    // CONFIGURE of a busy device: OK, twice.
    ("0000000000000008 0000000000000008 00494f43 6469736b00", "0000000000000008 00000000 00000002 00", 0, 2, 1),
    ("ffffffffffffffff 0000000000000008 00494f43 6469736b00", "ffffffffffffffff 00000000 00000002 00", 0, 2, 1),
    // The name that is its zero alone; numbers need not rise.
    ("0000000000000000 0000000000000009 00494f43 00", "0000000000000000 00000000 00000002 00", 0, 3, 1),
];

#[test]
fn replies_by_hand() {
    let mut bench = with_devices(&device_list());
    for (data, reply, code, place, w) in BY_HAND {
        let first = 18 << 27 | 2 << 25 | code << 16 | place;
        let expected = (hex(&format!("{START} {reply}")), first, w);
        assert_eq!(ask(&mut bench, &hex(data)), expected, "{data}");
    }
}

/// Kind 10, channel 2, service 1.
fn no_device(code: u64) -> u64 {
    10 << 27 | 2 << 25 | 1 << 23 | code << 16
}

#[test]
fn unknown_devices() {
    let mut bench = with_devices(&device_list());
    let before = bench.state.devices;
    let long = [&[b'x'; 255][..], b"\0"].concat();
    let longer = [&[b'x'; 256][..], b"\0"].concat();
    let longest = [&vec![b'x'; LONGEST_NAME - 1][..], b"\0"].concat();
    let unknown: [(u64, &[u8]); 11] = [
        (6, b"disk\0"),
        (7, b"tape\0"),
        (7, b"dis\0"),
        (7, b"disks\0"),
        (7, b"\0"),
        (8, b"net\0"),
        (7 | 1 << 32, b"disk\0"),
        (7 << 32, b"disk\0"),
        (7, &long),
        (7, &longer),
        (7, &longest),
    ];
    for (id, name) in unknown {
        // NOT_IN_MD and NOT_PRESENT for the three changes.
        for asked in [CONFIGURE, UNCONFIGURE, FORCE_UNCONFIG] {
            let got = ask(&mut bench, &build::device(10, id, asked, name));
            let reply = hex(&format!("{START} 000000000000000a 00000003 00000000 00"));
            assert_eq!(got, (reply, no_device(3), 10));
        }
        // FAILURE with status 0 for STATUS.
        let got = ask(&mut bench, &build::device(10, id, STATUS, name));
        let reply = hex(&format!("{START} 000000000000000a 00000001 00000000 00"));
        assert_eq!(got, (reply, no_device(1), 10));
    }
    assert_eq!(bench.state.devices, before);
    // A message that carries such a name is the longest that there is.
    let message = build::data(build::ours(5), &build::device(10, 7, STATUS, &longest));
    assert_eq!(message.len(), 8 + wire::MAX_PAYLOAD);
}

/// The number of the messages of bad form.
const NUMBER: u64 = 0x0102_0304_0506_0708;

/// Sends data that must get FAILURE and status 0, and change nothing.
fn fails(data: &[u8], number: u64) {
    let mut bench = with_devices(&device_list());
    let before = bench.state.devices;
    let reply = [
        hex(START),
        number.to_be_bytes().to_vec(),
        hex("00000001 00000000 00"),
    ];
    let got = ask(&mut bench, data);
    assert_eq!(got, (reply.concat(), no_device(1), number), "{data:?}");
    assert_eq!(bench.state.devices, before);
}

#[test]
fn short_messages() {
    let good = build::device(NUMBER, 7, UNCONFIGURE, b"disk\0");
    // Under 16 bytes the number is 0, from 8 bytes on too.
    for length in 0..16 {
        fails(&good[..length], 0);
    }
    // Up to 20 there is no name; up to 24 it has no zero.
    for length in 16..25 {
        fails(&good[..length], NUMBER);
    }
}

#[test]
fn bad_forms() {
    for name in [
        &b"disk\0\0"[..],
        b"\0disk\0",
        b"di\0sk\0",
        b"di\0sk",
        b"\0\0",
        b"\0x",
    ] {
        fails(&build::device(NUMBER, 7, UNCONFIGURE, name), NUMBER);
    }
    // The form is tested before the device is looked for.
    fails(&build::device(NUMBER, 99, CONFIGURE, b"disk"), NUMBER);
    for asked in [
        0,
        1,
        0x4f43,
        0x494f_4300,
        0x0149_4f43,
        0x49_4f44,
        u32::MAX,
        memory::QUERY,
    ] {
        fails(&build::device(NUMBER, 7, asked, b"disk\0"), NUMBER);
    }
}

#[test]
fn names_of_the_greatest_length() {
    let name = [&[b'n'; 255][..], b"\0"].concat();
    let mut near = name.clone();
    near[254] = b'm';
    let mut bench = with_devices(&[words(1, 0, 0, &near), words(1, 0, 0, &name)].concat());
    let (reply, first, second) = ask(&mut bench, &build::device(3, 1, CONFIGURE, &name));
    assert_eq!(reply[24..], hex("00000000 00000002 00"));
    assert_eq!((first & 0xffff, second), (1, 1));
    let configured = bench
        .state
        .devices
        .listed()
        .iter()
        .map(|device| device.configured);
    assert_eq!(configured.collect::<Vec<_>>(), [false, true]);
}

#[test]
fn show_is_empty_and_others_reach_their_service() {
    let mut bench = with_devices(&device_list());
    let request = build::device(1, 7, STATUS, b"disk\0");
    assert_eq!(
        show(&bench.state, 2, &build::data(build::ours(5), &request)),
        b""
    );
    assert_eq!(
        show(&bench.state, 2, &build::data(build::ours(5), b"any")),
        b""
    );
    // The same data for service 2 is a request of wrong length: kind 21, code 2.
    bench.offer(2, 2).unwrap();
    let handle = build::ours(bench.state.last);
    bench.receive(2, &build::reg_ack(handle, 0)).unwrap();
    let message = build::data(handle, &request);
    assert_eq!(show(&bench.state, 2, &message), b"");
    let reply = bench.receive(2, &message).unwrap();
    assert_eq!(reply[16..], hex("0000000000000001 00000002"));
    let at = (bench.state.last - 1) as usize * 2;
    let first = 21 << 27 | 2 << 25 | 2 << 23 | 2 << 16;
    assert_eq!(bench.journal[at] & 0xffff_ffff, first);
    // For service 0 it is a memory message: kind 10 with service 0.
    bench.ask(&request);
    assert_eq!(bench.last_entry(), (10, 0, 1, 0, 7));
}

#[test]
fn devices_stay_when_services_end() {
    let mut bench = with_devices(&device_list());
    ask(&mut bench, &build::device(1, 7, UNCONFIGURE, b"disk\0"));
    let before = bench.state.devices;
    bench.withdraw(2, 1).unwrap();
    bench.receive(2, &build::init_req(1, 0)).unwrap();
    bench.receive(2, &build::init_req(2, 0)).unwrap();
    bench.close(2).unwrap();
    assert_eq!(bench.state.devices, before);
    // An offered handle is not registered: NACK, and nothing changes.
    bench.receive(2, &build::init_req(1, 0)).unwrap();
    bench.offer(2, 1).unwrap();
    let handle = build::ours(bench.state.last);
    let request = build::device(1, 7, CONFIGURE, b"disk\0");
    let reply = bench.receive(2, &build::data(handle, &request));
    assert_eq!(reply, Ok(build::nack(handle, 3)));
    assert_eq!(bench.state.devices, before);
}

#[test]
fn a_removal_does_not_block_devices() {
    let mut bench = with_devices(&device_list());
    bench.unconfigure(&[A]);
    let (reply, first, _) = ask(&mut bench, &build::device(1, 7, UNCONFIGURE, b"disk\0"));
    assert_eq!(reply[24..32], hex("00000000 00000001"));
    assert_eq!(first >> 27, 18);
    assert!(bench.state.removal.is_some());
    assert_eq!(bench.state.highest, [None, None, Some(9), None]);
}

#[test]
fn on_two_channels() {
    let mut bench = with_devices(&device_list());
    bench.receive(0, &build::init_req(1, 0)).unwrap();
    bench.offer(0, 1).unwrap();
    let handle = build::ours(bench.state.last);
    bench.receive(0, &build::reg_ack(handle, 0)).unwrap();
    let request = build::device(1, 7, FORCE_UNCONFIG, b"net\0");
    let reply = bench.receive(0, &build::data(handle, &request)).unwrap();
    assert_eq!(reply[8..16], handle.to_be_bytes());
    let at = ((bench.state.last - 1) * 2) as usize;
    assert_eq!(bench.journal[at] & 0xffff_ffff, 18 << 27 | 1);
    // The other channel sees it.
    let (reply, ..) = ask(&mut bench, &build::device(1, 7, STATUS, b"net\0"));
    assert_eq!(reply[28..32], hex("00000001"));
    // The handle of channel 2 is not one of channel 0.
    let reply = bench.receive(0, &build::data(build::ours(5), &request));
    assert_eq!(reply, Ok(build::nack(build::ours(5), 3)));
}
