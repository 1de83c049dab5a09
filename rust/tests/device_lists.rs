//! Device lists: setup's rules, the lines that give them, and soundness.

mod common;
use common::*;
use independent::lines::{answer, DeviceLine};
use independent::{build, drain, memory, setup, show, Pair, State};

fn words(id: u64, configured: u64, busy: u64, name: &[u8]) -> [u64; 36] {
    let name = name.to_vec();
    DeviceLine {
        id,
        configured,
        busy,
        name,
    }
    .words()
}

#[test]
fn the_words_of_a_name() {
    let words = words(1, 0, 1, b"network\0disk");
    assert_eq!(
        words[..6],
        [1, 0, 1, 12, 0x6e65_7477_6f72_6b00, 0x6469_736b_0000_0000]
    );
    assert_eq!(words[6..], [0; 30]);
}

/// A list of as many devices, ids 0, 1 and so on, with this name.
fn many(count: u64, name: &[u8]) -> Vec<u64> {
    (0..count)
        .flat_map(|id| words(id, id % 2, id / 2 % 2, name))
        .collect()
}

#[test]
fn lists_that_are_accepted() {
    let name = |length: usize| [&vec![b'n'; length - 1][..], b"\0"].concat();
    for length in 1..=256 {
        assert!(
            setup(&[], &many(2, &name(length)), &[], &mut [0; 128]).is_ok(),
            "{length}"
        );
    }
    for count in [0, 1, 31, 32] {
        let state = setup(&BLOCK_LIST, &many(count, &name(256)), &[], &mut [0; 128]).unwrap();
        assert!(state.is_sound());
        assert_eq!((state.devices.count as u64, state.blocks.count), (count, 4));
        let back: Vec<u64> = state
            .devices
            .listed()
            .iter()
            .flat_map(|device| device.words())
            .collect();
        assert_eq!(back, many(count, &name(256)));
    }
    // The same id with two names, the same name with two ids.
    let list = [
        words(1, 0, 0, b"a\0"),
        words(1, 0, 0, b"b\0"),
        words(2, 0, 0, b"a\0"),
    ];
    assert!(setup(&[], &list.concat(), &[], &mut [0; 128]).is_ok());
    // One name is the beginning of another.
    let list = [
        words(1, 0, 0, b"\0"),
        words(1, 0, 0, b"a\0"),
        words(1, 0, 0, b"aa\0"),
    ];
    assert!(setup(&[], &list.concat(), &[], &mut [0; 128]).is_ok());
    // Words past the name's last are free, and stay.
    let mut free = words(1, 1, 0, b"network\0");
    free[5..].fill(u64::MAX);
    let state = setup(&[], &free, &[], &mut [0; 128]).unwrap();
    assert_eq!(state.devices.list[0].words(), free);
}

#[test]
fn lists_that_are_refused() {
    let good = words(1, 0, 0, b"disk\0");
    let refused = |list: &[u64]| {
        assert_eq!(
            setup(&BLOCK_LIST, list, &[], &mut [0; 128]),
            Err(7),
            "{list:?}"
        )
    };
    let changed = |word: usize, value: u64| {
        let mut list = good;
        list[word] = value;
        refused(&list);
        refused(&[words(2, 1, 1, b"net\0"), list].concat());
    };
    for value in [2, 3, 1 << 32, 1 << 32 | 1, u64::MAX] {
        changed(1, value);
        changed(2, value);
    }
    for length in [0, 4, 6, 8, 257, 1 << 32 | 5, u64::MAX] {
        changed(3, length);
    }
    for name in [
        0x6469_736b_6b00_0000,
        0x6469_006b_0000_0000,
        0x0069_736b_0000_0000,
        0x6469_7300_0000_0000,
        0x6469_736b_0000_0001,
        0x6469_736b_0001_0000,
        0x6469_736b_0080_0000,
    ] {
        changed(4, name);
    }
}

#[test]
fn more_lists_that_are_refused() {
    let refused = |list: &[u64]| {
        assert_eq!(
            setup(&BLOCK_LIST, list, &[], &mut [0; 128]),
            Err(7),
            "{list:?}"
        )
    };
    // A name of 257 bytes whose first 256 are a good one.
    let name = [&[b'n'; 255][..], b"\0\0"].concat();
    refused(&words(1, 0, 0, &name));
    // An inner zero anywhere in a long name.
    for at in 0..255 {
        let mut name = [&[b'n'; 255][..], b"\0"].concat();
        name[at] = 0;
        refused(&words(1, 0, 0, &name));
    }
    refused(&many(33, b"n\0"));
    refused(&many(64, b"n\0"));
    // Not whole devices.
    for length in [1, 35, 37, 71] {
        refused(&many(2, b"n\0")[..length]);
    }
    assert_eq!(
        setup(&[1, 1, 0, 0, 0], &many(1, b"n\0"), &[], &mut [0; 128]),
        Err(7)
    );
}

#[test]
fn an_id_and_name_twice() {
    for (one, other) in [(0, 1), (0, 31), (30, 31), (7, 20)] {
        let mut list = many(32, b"n\0");
        list[other * 36] = list[one * 36];
        list[other * 36 + 1] ^= 1;
        assert_eq!(setup(&[], &list, &[], &mut [0; 128]), Err(7));
        // Free words make no difference between names.
        list[other * 36 + 5..other * 36 + 36].fill(1);
        assert_eq!(setup(&[], &list, &[], &mut [0; 128]), Err(7));
        list[other * 36 + 4] = u64::from_be_bytes(*b"m\0\0\0\0\0\0\0");
        assert!(setup(&[], &list, &[], &mut [0; 128]).is_ok());
    }
}

type Spoil = fn(&mut State);

/// Changes of a state with disk, net and, past the count, no device.
const SPOILS: [Spoil; 12] = [
    |state| state.devices.count = 3,
    |state| state.devices.count = 33,
    |state| state.devices.count = usize::MAX,
    |state| state.devices.list[1].length = 0,
    |state| state.devices.list[1].length = 257,
    |state| state.devices.list[1].length = usize::MAX,
    |state| state.devices.list[1].length = 3,
    |state| state.devices.list[1].length = 5,
    |state| state.devices.list[0].name[1] = 0,
    |state| state.devices.list[0].name[5] = 1,
    |state| state.devices.list[0].name[7] = 0x80,
    |state| state.devices.list[1] = state.devices.list[0],
];

#[test]
fn unsound_and_sound_states() {
    let list = [words(1, 0, 0, b"disk\0"), words(1, 1, 1, b"net\0")].concat();
    let mut bench = Bench::with_memory();
    bench.offer(2, 3).unwrap();
    bench
        .receive(2, &build::reg_ack(build::ours(5), 0))
        .unwrap();
    bench.state.devices = setup(&[], &list, &[], &mut [0; 128]).unwrap().devices;
    let message = build::data(build::ours(5), b"abc");
    for (number, spoil) in SPOILS.iter().enumerate() {
        let mut spoilt = bench.clone();
        spoil(&mut spoilt.state);
        let before = spoilt.clone();
        assert_eq!(spoilt.receive(2, &message), Err(8), "{number}");
        assert_eq!(spoilt.offer(2, 1), Err(8));
        assert_eq!(spoilt.withdraw(2, 0), Err(8));
        assert_eq!(spoilt.close(9), Err(8));
        assert_eq!(spoilt.work(0), Err(8));
        assert_eq!(drain(&mut spoilt.state, &spoilt.journal, &mut []), Err(8));
        assert_eq!(show(&spoilt.state, 2, &message), b"");
        assert_eq!(spoilt, before);
    }
    // Bytes past the name's last word, and devices past the count, are free.
    let mut free = bench.clone();
    free.state.devices.list[0].name[8..].fill(7);
    free.state.devices.list[2].length = usize::MAX;
    free.state.devices.list[3] = free.state.devices.list[0];
    let before = free.state.devices;
    assert!(free.receive(2, &message).is_ok());
    assert_eq!(free.state.devices, before);
}

fn host(input: &str) -> String {
    String::from_utf8(answer(input.as_bytes())).unwrap()
}

fn devices_of(input: &str) -> Vec<String> {
    let text = host(&format!("{input}state\n"));
    let lines = text.lines().filter(|line| line.starts_with("device"));
    lines.map(str::to_string).collect()
}

#[test]
fn lines_for_devices() {
    let list = "device 7 1 0 6469736b00\ndevice 0x7 0 1 6E657400\n";
    assert_eq!(host(list), "");
    let text = host(&format!("{list}setup 0 1 0 0 0\nstate\nsetup\nstate\n"));
    let channels = "channel 0 closed\nchannel 1 closed\nchannel 2 closed\nchannel 3 closed\n";
    let orders = "permission 2 denied\npermission 3 denied\norder none\n";
    let devices = "device 0 configured\ndevice 1 unconfigured\n";
    // The second setup has no devices.
    let expected = format!(
        "setup accepted\n{channels}block 0 unconfigured\n{devices}{orders}entries 1\n\
         setup accepted\n{channels}{orders}entries 1\n"
    );
    assert_eq!(text, expected);
    // A refused setup takes the devices too, a bad line does not.
    assert!(devices_of(&format!("{list}setup 1\nsetup\n")).is_empty());
    assert_eq!(
        devices_of(&format!("{list}setup \nsetup x\nsetup\n")).len(),
        2
    );
    assert_eq!(
        devices_of("device 0 0 0 00\nclose 1\ndrain 2\nsetup\n").len(),
        1
    );
}

#[test]
fn the_state_has_devices_before_the_removal() {
    let receive = |message: &[u8]| {
        let digits: String = message.iter().map(|byte| format!("{byte:02x}")).collect();
        format!("receive 2 {digits}\n")
    };
    let block = Pair {
        addr: 0,
        size: 8_192,
    };
    let remove = build::request(memory::UNCONFIGURE, 9, &[block]);
    let text = host(&format!(
        "device 1 1 1 00\nsetup 0 1 0 0 1\n{}offer 2 0\n{}{}state\n",
        receive(&build::init_req(1, 0)),
        receive(&build::reg_ack(build::ours(3), 0)),
        receive(&build::data(build::ours(3), &remove)),
    ));
    let lines: Vec<&str> = text.lines().rev().take(7).collect();
    let expected = [
        "entries 5",
        "removal open record 0 pages 0",
        "order none",
        "permission 3 denied",
        "permission 2 denied",
        "device 0 configured",
        "block 0 configured",
    ];
    assert_eq!(lines, expected);
}

#[test]
fn bad_lines() {
    for line in [
        "device",
        "device 1",
        "device 1 0",
        "device 1 0 0 00 00",
        "device 1 0 0 0",
        "device 1 0 0 0g",
        "device 1 0 0 0x00",
        "device 1 0 0 ",
        "device  1 0 0 00",
        "device x 0 0 00",
        "device 1 0 18446744073709551616 00",
        "device 0x10000000000000000 0 0 00",
        "Device 1 0 0 00",
    ] {
        assert_eq!(
            host(&format!("{line}\nsetup")),
            "bad line 1\nsetup accepted\n",
            "{line}"
        );
    }
    let name = |bytes: usize| format!("device 1 0 0 {}\nsetup", "61".repeat(bytes));
    assert_eq!(host(&name(301)), "bad line 1\nsetup accepted\n");
    for bytes in [1, 256, 257, 300] {
        assert_eq!(host(&name(bytes)), "setup refused 7\n");
    }
    // Without a name its length is 0; with a mark of 2 the line is good too.
    for line in ["device 1 0 0", "device 1 2 0 00", "device 1 0 2 00"] {
        assert_eq!(
            host(&format!("{line}\nsetup\nsetup")),
            "setup refused 7\nsetup accepted\n"
        );
    }
}

#[test]
fn sixty_four_lines() {
    let lines = |count: u64| -> String {
        (0..count)
            .map(|id| format!("device {id} 0 0 6100\n"))
            .collect()
    };
    assert_eq!(devices_of(&format!("{}setup\n", lines(32))).len(), 32);
    assert_eq!(host(&format!("{}setup\n", lines(33))), "setup refused 7\n");
    assert_eq!(host(&format!("{}setup\n", lines(64))), "setup refused 7\n");
    let text = host(&format!("{}{}setup\n", lines(66), lines(1)));
    assert_eq!(
        text,
        "bad line 65\nbad line 66\nbad line 67\nsetup refused 7\n"
    );
    // After the setup there is room again.
    let text = host(&format!("{}setup\n{}setup\n", lines(65), lines(32)));
    assert_eq!(text, "bad line 65\nsetup refused 7\nsetup accepted\n");
}
