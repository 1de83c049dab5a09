//! Id lists that setup accepts and refuses, the same in a state, and the lines
//! that give them.

mod common;
use common::*;
use independent::lines::answer;
use independent::{build, setup, Ids, Peers, State};

/// An id's words.
fn id(major: u64, minor: u64, bytes: &[u8]) -> [u64; 7] {
    let mut words = [major, minor, bytes.len() as u64, 0, 0, 0, 0];
    for (at, byte) in bytes.iter().enumerate() {
        words[3 + at / 8] |= u64::from(*byte) << (56 - at % 8 * 8);
    }
    words
}

/// An id of so many bytes, with its zero.
fn name(length: usize) -> Vec<u8> {
    let mut name = vec![b'n'; length - 1];
    name.push(0);
    name
}

/// So many different ids of 2 bytes.
fn many(count: u8) -> Vec<u64> {
    let ids = (0..count).map(|number| id(1, 0, &[number + 1, 0]));
    ids.collect::<Vec<_>>().concat()
}

fn takes(list: &[u64]) -> bool {
    match setup(&BLOCK_LIST, &[], list, &mut [0; 128]) {
        Ok(state) => {
            assert!(state.is_sound());
            assert_eq!(state.ids.count * 7, list.len());
            let words: Vec<[u64; 7]> = state.ids.listed().iter().map(|id| id.to_words()).collect();
            assert_eq!(words.concat(), list);
            true
        }
        refused => {
            assert_eq!(refused, Err(7));
            false
        }
    }
}

#[test]
fn lists_that_are_good() {
    for count in 0..=16 {
        assert!(takes(&many(count)), "{count}");
    }
    for length in 1..=32 {
        assert!(takes(&id(0, 0xffff, &name(length))), "{length}");
    }
    // One is the beginning of another; all lengths together.
    let all: Vec<[u64; 7]> = (1..=16)
        .map(|length| id(0xffff, 0, &name(length)))
        .collect();
    assert!(takes(&all.concat()));
    let all: Vec<[u64; 7]> = (17..=32).map(|length| id(1, 1, &name(length))).collect();
    assert!(takes(&all.concat()));
    // Ids that differ in their first or last byte, or in case, only.
    for (one, other) in [
        (b"abcdefgh\0", b"bbcdefgh\0"),
        (b"abcdefgh\0", b"abcdefgi\0"),
        (b"abcdefgh\0", b"Abcdefgh\0"),
        (b"abcdefgh\0", b"abcdefg\xff\0"),
    ] {
        assert!(takes(&[id(1, 0, one), id(1, 0, other)].concat()));
    }
    // Two whose marks are the same, by which this agent tells ids apart first.
    let alike = [id(1, 0, b"7ulie0d\0"), id(1, 0, b"l5v6161\0")];
    assert!(takes(&alike.concat()));
    assert!(takes(
        &[alike[0].to_vec(), many(14), alike[1].to_vec()].concat()
    ));
    assert!(!takes(&[&alike[..], &alike[..1]].concat().concat()));
    // Words after the last used one are free, and make no two ids different.
    let mut free = id(1, 0, &name(8));
    free[4..].fill(u64::MAX);
    assert!(takes(&free));
    assert!(!takes(&[free, id(1, 0, &name(8))].concat()));
}

#[test]
fn lists_that_are_refused() {
    assert!(!takes(&many(17)));
    assert!(!takes(&many(32)));
    for length in [1, 6, 8, 13, 15] {
        assert!(!takes(&many(3)[..length]), "{length}");
    }
    for version in [1 << 16, 1 << 32, 1 << 32 | 1, u64::MAX] {
        assert!(!takes(&id(version, 0, &name(4))));
        assert!(!takes(&id(0, version, &name(4))));
    }
    for length in [0, 33, 34, 64, 1 << 32 | 4, 1 << 63 | 4, u64::MAX] {
        let mut bad = id(1, 0, &name(4));
        bad[2] = length;
        assert!(!takes(&bad), "{length}");
        assert!(!takes(&[many(2), bad.to_vec()].concat()), "{length}");
    }
    for length in 1..=32 {
        // No zero at the end, and each inner zero.
        for zero in 0..length {
            let mut bytes = name(length);
            match zero + 1 == length {
                true => bytes[zero] = b'n',
                false => bytes[zero] = 0,
            }
            assert!(!takes(&id(1, 0, &bytes)), "{length} {zero}");
        }
        // Bytes after the id in its last word.
        for after in length..length.next_multiple_of(8) {
            let mut bad = id(1, 0, &name(length));
            bad[3 + after / 8] |= 1 << (56 - after % 8 * 8);
            assert!(!takes(&bad), "{length} {after}");
        }
    }
    // An id twice, with the same or other versions, next to each other or not.
    for length in [1, 7, 8, 9, 32] {
        let (one, other) = (id(1, 0, &name(length)), id(2, 7, &name(length)));
        assert!(!takes(&[one, one].concat()));
        assert!(!takes(&[one, other].concat()));
        let apart = [one.to_vec(), many(14), other.to_vec()].concat();
        assert!(!takes(&apart), "{length}");
    }
    // Any of the three lists.
    assert_eq!(setup(&[1], &[], &many(1), &mut [0; 128]), Err(7));
    assert_eq!(setup(&[], &[1], &many(1), &mut [0; 128]), Err(7));
    assert_eq!(setup(&[], &[], &[1], &mut [0; 128]), Err(7));
}

/// Channel 2 ready with the ids 1 to 16 and eight registrations.
fn with_peers() -> Bench {
    let mut bench = Bench::with_memory();
    bench.state.ids = Ids::from_words(&many(16)).unwrap();
    for number in 0..8 {
        let id = [number + 1, 0];
        let reply = bench.receive(2, &build::reg_req(number.into(), 1, 0, &id));
        assert_eq!(reply, Ok(build::reg_ack(number.into(), 0)));
    }
    bench
}

type Spoil = fn(&mut State);

const SPOILS: [Spoil; 17] = [
    // The list's own limits.
    |state| state.ids.count = 17,
    |state| state.ids.count = usize::MAX,
    |state| state.ids.list[15].length = 0,
    |state| state.ids.list[15].length = 33,
    |state| state.ids.list[0].words[0] = 0x0101 << 48,
    |state| state.ids.list[0].words[0] |= 1,
    |state| state.ids.list[3].words[0] = 0,
    |state| state.ids.list[15] = state.ids.list[14],
    |state| state.ids.list[15].words[0] = state.ids.list[0].words[0],
    // Registrations.
    |state| state.ids.count = 7,
    |state| state.channels[2].ready = false,
    |state| state.peers[3] = state.peers[2],
    |state| state.peers[2].add(8, 100, 0),
    |state| state.peers[2].handles[3] |= 1 << 63,
    |state| state.peers[2].handles[3] = state.peers[2].handles[7],
    |state| state.peers[2].minors[0] = 1,
    |state| state.peers[2].minors[7] = 65_535,
];

#[test]
fn states_that_are_not_sound() {
    let message = build::data(1, b"abc");
    for (number, spoil) in SPOILS.iter().enumerate() {
        let mut bench = with_peers();
        // An idle channel would be refused for its live service alone.
        bench.withdraw(2, 0).unwrap();
        assert_eq!(independent::show(&bench.state, 2, &message), b"abc");
        spoil(&mut bench.state);
        let before = bench.clone();
        assert!(!bench.state.is_sound(), "{number}");
        assert_eq!(bench.receive(2, &message), Err(8), "{number}");
        assert_eq!(bench.close(1), Err(8));
        assert_eq!(bench.permit(2, true), Err(8));
        assert_eq!(independent::show(&bench.state, 2, &message), b"");
        assert_eq!(bench, before);
    }
}

#[test]
fn made_states_that_are_sound() {
    let changes: [Spoil; 8] = [
        |state| state.peers[2].handles[0] = (1 << 63) - 1,
        |state| state.peers[2].handles[7] = 2, // an entry number of ours
        |state| state.peers[2].handles[15] = 1 << 63,
        |state| state.peers[2].minors[15] = 65_535,
        |state| (state.ids.list[0].minor, state.peers[2].minors[0]) = (9, 9),
        |state| state.ids.list[0].words[1..].fill(u64::MAX),
        |state| state.peers[2] = Peers::default(),
        |state| {
            state.channels[3].ready = true;
            state.peers[3] = state.peers[2];
        },
    ];
    for (number, change) in changes.iter().enumerate() {
        let mut bench = with_peers();
        let seven = bench.state.peers[2].find(2);
        bench.state.peers[2].remove(seven.unwrap());
        change(&mut bench.state);
        assert!(bench.state.is_sound(), "{number}");
        assert_eq!(bench.close(1), Ok(vec![]), "{number}");
    }
}

fn host(input: &str) -> String {
    String::from_utf8(answer(input.as_bytes())).unwrap()
}

#[test]
fn lines_give_the_list() {
    let init = "receive 2 000000000000000400010000\n";
    let sp = "receive 2 000000030000000f000000000000000a00020009737000\n";
    let other = "receive 2 000000030000000f000000000000000b00010000787800\n";
    let list = format!(
        "peer 1 0 787800\npeer 0x2 3 737000\nsetup\n{init}offer 2 1\n{sp}{other}state\n\
         show 2 0000000900000009000000000000000aAb\n\
         receive 2 0000000900000009000000000000000aab\n\
         receive 2 0000000600000008000000000000000a\nreceive 2 000000000000000400020000\n\
         drain 256\n"
    );
    let expected = "setup accepted\nreceive accepted 00000001000000020000\n\
         offer accepted 000000030000001380000000000000030001000064722d76696f00\n\
         receive accepted 000000040000000a000000000000000a0003\n\
         receive accepted 000000040000000a000000000000000b0000\n\
         channel 0 closed\nchannel 1 closed\nchannel 2 ready\n\
         service 1 offered 9223372036854775811\npeer 0 registered 11 0\npeer 1 registered 10 3\n\
         channel 3 closed\npermission 2 denied\npermission 3 denied\norder none\nentries 5\n\
         show ab\nreceive accepted\nreceive accepted 0000000700000008000000000000000a\n\
         receive accepted 00000002000000020001\ndrain accepted 8\n\
         entry 00000001f8000000 0000000000000000\n\
         entry 000000020c000000 0000000000000000\nentry 0000000324800000 0000000000000000\n\
         entry 00000004b4080003 000000000000000a\nentry 00000005b4000000 000000000000000b\n\
         entry 00000006c4000000 0000000000000000\nentry 00000007bc000000 000000000000000a\n\
         entry 000000081c000002 0000000000000000\n";
    assert_eq!(host(&list), expected);
    // The setup took the list: the next one has none.
    let again = format!(
        "{}setup\n{init}{sp}",
        &list[..list.find("setup").unwrap() + 6]
    );
    let refused = "receive accepted 0000000500000012000000000000000a00000000000000010000\n";
    assert!(host(&again).ends_with(refused));
}

#[test]
fn lines_of_refused_lists() {
    let long = |length: usize| "61".repeat(length - 1) + "00";
    for (lines, accepted) in [
        (format!("peer 1 0 {}", long(32)), true),
        (format!("peer 65535 65535 {}", long(1)), true),
        (format!("peer 1 0 {}", long(33)), false),
        (format!("peer 1 0 {}", long(64)), false),
        // The first 32 bytes of it would be an id.
        (format!("peer 1 0 {}{}", long(32), "61"), false),
        ("peer 65536 0 00".into(), false),
        ("peer 0 18446744073709551615 00".into(), false),
        ("peer 1 0".into(), false),
        ("peer 1 0 61".into(), false),
        ("peer 1 0 6100 \npeer 1 0 610061".into(), false),
        ("peer 1 0 6100\npeer 1 1 6100".into(), false),
    ] {
        let answers = host(&format!("{lines}\nsetup\nsetup\n"));
        let first = if accepted { "accepted" } else { "refused 7" };
        let setups: Vec<&str> = answers
            .lines()
            .filter(|line| line.starts_with("setup"))
            .collect();
        assert_eq!(
            setups,
            [format!("setup {first}").as_str(), "setup accepted"],
            "{lines}"
        );
    }
}

#[test]
fn bad_lines() {
    let long = format!("peer 1 0 {}", "61".repeat(65));
    for line in [
        "peer",
        "peer 1",
        "peer ",
        "peer 1 ",
        "peer 1 0 ",
        "peer 1 0 0",
        "peer 1 0 610",
        "peer 1 0 6g",
        "peer 1 0 0x61",
        "peer 1 0 00 00",
        "peer 1 0 00 ",
        "peer x 0 00",
        "peer 1 -1 00",
        "peer 18446744073709551616 0 00",
        "peer 1 0x10000000000000000 00",
        " peer 1 0 00",
        "Peer 1 0 00",
        "peers 1 0 00",
        "peer 1 0 00\r",
        &long,
    ] {
        let answers = host(&format!("{line}\nsetup\n"));
        assert_eq!(answers, "bad line 1\nsetup accepted\n", "{line}");
    }
    // The 33rd line; the 32 stay, and are refused. A bad line is not counted.
    let lines: String = (0..33)
        .map(|number| format!("peer 1 0 {:02x}00\n", number + 1))
        .collect();
    assert_eq!(
        host(&format!("{lines}setup\nsetup\n")),
        "bad line 33\nsetup refused 7\nsetup accepted\n"
    );
    let sixteen: String = lines
        .lines()
        .take(16)
        .map(|line| format!("{line}\npeer 1\n"))
        .collect();
    assert!(host(&format!("{sixteen}setup\n")).ends_with("setup accepted\n"));
    // A bad setup line leaves the list.
    let kept = host("peer 1 0 61\nsetup x\nsetup\n");
    assert_eq!(kept, "bad line 2\nsetup refused 7\n");
}
