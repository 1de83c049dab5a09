//! The lines `piece` and `reopen`, and the front in `state`.

use independent::lines::{answer, MAX_LINE};
use independent::{build, wire};

fn host(input: &str) -> String {
    String::from_utf8(answer(input.as_bytes())).unwrap()
}

fn digits(bytes: &[u8]) -> String {
    bytes.iter().map(|byte| format!("{byte:02x}")).collect()
}

fn piece(channel: u64, bytes: &[u8]) -> String {
    match bytes {
        [] => format!("piece {channel}\n"),
        _ => format!("piece {channel} {}\n", digits(bytes)),
    }
}

/// The answers after `setup accepted`.
fn after_setup(list: &str) -> String {
    let answer = host(&format!("setup\n{list}"));
    answer.strip_prefix("setup accepted\n").unwrap().to_string()
}

/// The lines of the front, and the one after them, that `state` writes.
fn shown(list: &str) -> Vec<String> {
    let text = host(&format!("{list}state\n"));
    let (_, state) = text.rsplit_once("order none\n").unwrap();
    state.lines().map(str::to_string).collect()
}

/// A header that closes and drops.
const OVER: &str = "0000000900001001";

#[test]
fn lines_and_their_answers() {
    let init = build::init_req(1, 0);
    let unreg = build::of_handle(wire::UNREG, 5);
    let mut list =
        piece(2, &[]) + &piece(2, &init[..3]) + &piece(2, &[&init[3..], &unreg].concat());
    list += &piece(2, &unreg);
    list += &piece(2, &build::of_handle(wire::UNREG_ACK, 5));
    list += &format!("piece 0x2 {OVER}00\npiece 2 00\npiece 2\nreopen 02\npiece 2 00\nreopen 2\n");
    list += "piece 4\nreopen 4\npiece 18446744073709551615 00\nreopen 0x100000001\ndrain 256\n";
    let expected = "piece accepted 0\n\
        piece accepted 3\n\
        piece accepted 9 message 00000001000000020000\n\
        piece accepted 16 message 00000008000000080000000000000005\n\
        piece accepted 16 message\n\
        piece accepted 8 message\n\
        piece accepted 1\n\
        piece accepted 0\n\
        reopen accepted\n\
        piece accepted 1\n\
        reopen accepted\n\
        piece refused 3\n\
        reopen refused 3\n\
        piece refused 3\n\
        reopen refused 3\n\
        drain accepted 5\n\
        entry 00000001f8000000 0000000000000000\n\
        entry 000000020c000000 0000000000000000\n\
        entry 000000038c000000 0000000000000006\n\
        entry 000000048c000000 0000000000000007\n\
        entry 0000000514000000 0000000000000001\n";
    assert_eq!(after_setup(&list), expected);
}

#[test]
fn refusals() {
    let calls = "piece 0 00\npiece 9\npiece 0\nreopen 0\nreopen 9\n";
    let refused = "piece refused 8\n".repeat(3) + &"reopen refused 8\n".repeat(2);
    for sizes in [
        "",
        "journal 127\n",
        "output 0\n",
        "journal 0\noutput 2591\n",
    ] {
        assert_eq!(host(&format!("{sizes}{calls}")), refused);
    }
    // After a setup that is refused by 7 or by 1.
    for setup in ["setup 1\n", "setup\nsetup 1\n", "journal 127\nsetup\n"] {
        assert!(host(&format!("{setup}{calls}")).ends_with(&refused));
    }
    let each = |number| {
        let piece = format!("piece refused {number}\n");
        format!("{}reopen accepted\nreopen refused 3\n", piece.repeat(3))
    };
    for (sizes, number) in [
        ("journal 127\n", 1),
        ("journal 129\noutput 0\n", 1),
        ("output 2591\n", 2),
    ] {
        assert_eq!(after_setup(&format!("{sizes}{calls}")), each(number));
    }
    // A full journal refuses a message only.
    let init = piece(1, &build::init_req(1, 0));
    let full = "close 0\n".repeat(63) + "close 0\n" + &init + "piece 1 00\nreopen 1\n";
    let answer = after_setup(&(full + &init + "drain 2\n" + &init + &init));
    let (_, answers) = answer.rsplit_once("close refused 4\n").unwrap();
    let expected = "piece refused 4\npiece accepted 1\nreopen accepted\npiece refused 4\n\
        drain accepted 1\nentry 00000001f8000000 0000000000000000\n\
        piece accepted 12 message 00000001000000020000\npiece refused 4\n";
    assert_eq!(answers, expected);
}

#[test]
fn what_the_state_shows() {
    assert_eq!(shown(""), ["entries 0"]);
    assert_eq!(shown("setup\npiece 1\n"), ["entries 1"]);
    let list = format!("setup\npiece 3 00\npiece 1 {OVER}\npiece 0 0000000900001000ff\n");
    let front = ["front 0 kept 9", "front 1 dropping", "front 3 kept 1"];
    assert_eq!(shown(&list)[..3], front);
    assert_eq!(shown(&list)[3..], ["entries 2"]);
    // Calls of the agent leave it.
    let init = digits(&build::init_req(1, 0));
    let calls = format!("{list}receive 1 {init}\nreceive 0 {init}\nclose 0\nreceive 3 00\n");
    assert_eq!(shown(&calls)[..3], front);
    assert_eq!(shown(&calls)[3..], ["entries 6"]);
    let reopened = format!("{list}reopen 0\nreopen 1\nreopen 2\n");
    assert_eq!(shown(&reopened), ["front 3 kept 1", "entries 2"]);
    // A setup empties the fronts, a refused one too; a bad line does not.
    assert_eq!(shown(&format!("{list}setup\n")), ["entries 1"]);
    assert_eq!(shown(&format!("{list}setup 1\n")), ["entries 0"]);
    assert_eq!(shown(&format!("{list}setup x\n"))[..3], front);
    let without = format!("{list}journal 127\nsetup\njournal 128\nsetup\n");
    assert_eq!(shown(&without), ["entries 1"]);
    // The longest part that is kept.
    let most = format!("setup\npiece 2 0000000900001000{}\n", "00".repeat(4_095));
    assert_eq!(shown(&most), ["front 2 kept 4103", "entries 1"]);
}

#[test]
fn it_stands_after_the_removal() {
    let request = build::request(
        independent::memory::UNCONFIGURE,
        9,
        &[independent::Pair {
            addr: 0,
            size: 8_192,
        }],
    );
    let messages = [
        build::reg_ack(build::ours(3), 0),
        build::data(build::ours(3), &request),
    ];
    let init = build::init_req(1, 0);
    let mut list = format!("setup 0 1 0 0 1\n{}offer 2 0\n", piece(2, &init));
    list += &messages.map(|message| piece(2, &message)).concat();
    let lines = [
        "removal open record 0 pages 0",
        "front 2 kept 2",
        "entries 5",
    ];
    assert_eq!(shown(&(list + "piece 2 0000\n")), lines);
}

#[test]
fn bad_lines() {
    for line in [
        "piece",
        "piece ",
        "piece x",
        "piece 1 ",
        "piece 1 0",
        "piece 1 0g",
        "piece 1 000",
        "piece 1 0x00",
        "piece 1 00 00",
        "piece 1  00",
        "piece 18446744073709551616",
        "Piece 1",
        "pieces 1",
        " piece 1",
        "piece 1\r",
        "reopen",
        "reopen ",
        "reopen x",
        "reopen 1 ",
        "reopen 1 1",
        "reopen  1",
        "reopen -1",
        "reopen 18446744073709551616",
        "Reopen 1",
        "reopen\t1",
    ] {
        let expected = "bad line 2\npiece accepted 1\n";
        assert_eq!(
            after_setup(&format!("{line}\npiece 1 00")),
            expected,
            "{line}"
        );
    }
}

#[test]
fn long_lines() {
    // The most bytes that a line can hold, and one digit more.
    let list = |bytes: usize| format!("piece 0 {}\n", "00".repeat(bytes));
    let most = (MAX_LINE - 8) / 2;
    assert_eq!(list(most).len() - 1, MAX_LINE);
    assert_eq!(after_setup(&list(most)), "piece accepted 8 message\n");
    assert_eq!(after_setup(&list(most + 1)), "bad line 2\n");
    let dropped = format!("piece 0 {OVER}\n{}", list(most));
    let expected = format!("piece accepted 8 message\npiece accepted {most}\n");
    assert_eq!(after_setup(&dropped), expected);
}
