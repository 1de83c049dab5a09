//! The line format of the host.

use independent::lines::{answer, Feed, MAX_LINE};

fn host(input: &str) -> String {
    String::from_utf8(answer(input.as_bytes())).unwrap()
}

const DAY: &str = "# the day
setup 0x10000000 4 0 0 1 0x20000000 2 1 1 1

receive 2 000000000000000400010000
offer 2 0
receive 2 000000040000000A80000000000000030000
receive 2 000000090000002880000000000000030000\
4d5500000001000000000000000900000000100000000000000000008000
work 3
state
work 3
work 1
drain 3
drain 256
state";

const DAY_ANSWERS: &str = "setup accepted
receive accepted 00000001000000020000
offer accepted 000000030000001380000000000000030001000064722d6d656d00
receive accepted
receive accepted
work accepted 3
channel 0 closed
channel 1 closed
channel 2 ready
service 0 registered 9223372036854775811 0
channel 3 closed
block 0 configured
block 1 configured
permission 2 denied
permission 3 denied
order none
removal open record 0 pages 3
entries 6
work accepted 1
work accepted 0 000000090000003480000000000000030000006f000000010000000000000009\
00000000100000000000000000008000000000000000000100000000
drain accepted 1
entry 00000001f8000000 0000000000000000
drain accepted 7
entry 000000020c000000 0000000000000000
entry 0000000324000000 0000000000000000
entry 000000042c000000 8000000000000003
entry 0000000564000001 0000000000000009
entry 0000000674000003 0000000000000000
entry 000000077c000001 0000000000000000
entry 0000000884000001 0000000000000009
channel 0 closed
channel 1 closed
channel 2 ready
service 0 registered 9223372036854775811 0
channel 3 closed
block 0 unconfigured
block 1 configured
permission 2 denied
permission 3 denied
order none
entries 8
";

#[test]
fn the_day_as_lines() {
    assert_eq!(host(DAY), DAY_ANSWERS);
}

/// What a drain after a setup writes.
const MARK: &str = "drain accepted 1\nentry 00000001f8000000 0000000000000000\n";

/// Every call but setup.
const CALLS: &str = "receive 9 00\noffer 0 0\nwithdraw 9 9\nclose 1\nwork 0\ndrain 2\n\
                     permit 2 1\ntake\n";

#[test]
fn the_empty_state() {
    let refused = "receive refused 8\noffer refused 8\nwithdraw refused 8\nclose refused 8\n\
                   work refused 8\ndrain refused 8\npermit refused 8\ntake refused 8\n";
    assert_eq!(host(CALLS), refused);
    for sizes in ["journal 127\n", "output 0\n", "journal 0\noutput 2591\n"] {
        assert_eq!(host(&format!("{sizes}{CALLS}")), refused);
    }
    // After a setup that is refused by 7 or by 1, also if one was accepted
    // before it.
    for setup in ["setup 1\n", "setup\nsetup 1\n", "journal 127\nsetup\n"] {
        let answer = host(&format!("{setup}{CALLS}show 1 00\n"));
        assert!(answer.ends_with(&format!("{refused}show\n")), "{answer}");
    }
}

#[test]
fn setup_and_the_journal() {
    for words in [0, 127, 129, 200] {
        let sized = format!("journal {words}\n");
        assert_eq!(host(&format!("{sized}setup\n")), "setup refused 1\n");
        // 1 is tested before 7.
        assert_eq!(host(&format!("{sized}setup 1\n")), "setup refused 1\n");
        // A refused setup takes the lists.
        let list = format!("device 1 9 0 00\n{sized}setup\njournal 128\nsetup\ndrain 9\n");
        let expected = format!("setup refused 1\nsetup accepted\n{MARK}");
        assert_eq!(host(&list), expected);
    }
    // It is lent no output.
    assert_eq!(
        host("output 0\nsetup\ndrain 4\n"),
        format!("setup accepted\n{MARK}")
    );
}

#[test]
fn sixty_four_blocks_on_a_line() {
    let list = |count: u64| -> String {
        let block = |at: u64| format!(" {} 1 0 0 1", (1 << 62) + at * 8192);
        let blocks: String = (0..count).map(block).collect();
        format!("setup{blocks}\n")
    };
    assert!(list(64).len() < MAX_LINE);
    let answer = host(&(list(64) + "state\n"));
    assert!(answer.contains("block 63 configured\npermission 2"));
    assert_eq!(host(&list(65)), "setup refused 7\n");
}

#[test]
fn before_and_after_setups() {
    let state = |blocks: &str, entries| {
        let channels: String = (0..4)
            .map(|number| format!("channel {number} closed\n"))
            .collect();
        let orders = "permission 2 denied\npermission 3 denied\norder none\n";
        format!("{channels}{blocks}{orders}entries {entries}\n")
    };
    assert_eq!(host("state"), state("", 0));
    let input =
        "close 1\nsetup 0 1 0 0 0\nstate\nclose 9\nsetup 1\nstate\nclose 9\nsetup\ndrain 2\n";
    let answers = format!(
        "close refused 8\nsetup accepted\n{}close refused 3\nsetup refused 7\n{}\
         close refused 8\nsetup accepted\n{MARK}",
        state("block 0 unconfigured\n", 1),
        state("", 0)
    );
    assert_eq!(host(input), answers);
}

#[test]
fn sizes() {
    let input = "output 2591\nsetup\nclose 0\noutput 2592\nclose 0\njournal 127\nclose 0\n\
                 drain 2\njournal 200\ndrain 2\njournal 128\ndrain 4\n";
    let answers = "setup accepted\nclose refused 2\nclose accepted\n\
                   close refused 1\ndrain refused 1\ndrain refused 1\ndrain accepted 2\n\
                   entry 00000001f8000000 0000000000000000\n\
                   entry 0000000210000000 0000000000000000\n";
    assert_eq!(host(input), answers);
    // The output has 2,592 bytes at first.
    assert_eq!(host("setup\nclose 0\n"), "setup accepted\nclose accepted\n");
}

#[test]
fn show_lines() {
    let input = "setup\nreceive 1 000000000000000400010000\noffer 1 2\n\
                 receive 1 000000040000000a80000000000000030000\n\
                 show 1 000000090000000a8000000000000003AbCd\nshow 1\nshow 9 00\n\
                 receive 1 000000090000000a8000000000000003abcd\n";
    let answer = host(input);
    let answers: Vec<&str> = answer.lines().skip(4).collect();
    let invalid = "receive accepted 00000009000000148000000000000003000000000000000000000002";
    assert_eq!(answers, ["show", "show", "show", invalid]);
}

/// The answers to a list after a setup; bad lines are counted with it.
fn after_setup(input: &str) -> String {
    let answer = host(&format!("setup\n{input}"));
    answer.strip_prefix("setup accepted\n").unwrap().to_string()
}

#[test]
fn numbers() {
    for good in [
        "0x2",
        "0X2",
        "2",
        "002",
        "0x0000000000000000000000002",
        "0x",
        "2x",
        "+2",
        "-2",
        "",
    ]
    .iter()
    .zip([
        true, false, true, true, true, false, false, false, false, false,
    ]) {
        let answer = after_setup(&format!("close {}\n", good.0));
        assert_eq!(answer == "close accepted\n", good.1, "{}", good.0);
        assert_eq!(answer == "bad line 2\n", !good.1, "{}", good.0);
    }
    let refused = "work refused 3\n";
    assert_eq!(after_setup("work 18446744073709551615"), refused);
    assert_eq!(after_setup("work 0xffffffffffffffff"), refused);
    assert_eq!(after_setup("work 0xFFFFFFFFFFFFFFFF"), refused);
    assert_eq!(host("work 18446744073709551616"), "bad line 1\n");
    assert_eq!(host("work 0x10000000000000000"), "bad line 1\n");
}

#[rustfmt::skip]
const BAD_LINES: [&str; 31] = [
        "Close 1",
        "close",
        "close 1 2",
        "close  1",
        " close 1",
        "close 1 ",
        "close\t1",
        "close 1\r",
        "closed 1",
        "drain 257",
        "drain",
        "output 4097",
        "journal 201",
        "receive",
        "receive 1 0",
        "receive 1 0g",
        "receive 1 00 00",
        "receive 1 ",
        "receive 1 0x00",
        "show",
        "show x",
        "state 1",
        "state ",
        "setup ",
        "setup 1 x",
        "offer 1",
        "offer 1 2 3",
        "work",
        "work 1 2",
        "\u{e9}",
        "setup 1  2",
];

#[test]
fn bad_lines() {
    for line in BAD_LINES {
        assert_eq!(
            after_setup(&format!("{line}\nclose 1")),
            "bad line 2\nclose accepted\n",
            "{line:?}"
        );
    }
    assert_eq!(
        answer(b"close 1\xff\nclose \x00\n"),
        b"bad line 1\nbad line 2\n"
    );
}

#[test]
fn passed_over_lines_count() {
    assert_eq!(host(""), "");
    assert_eq!(
        after_setup("\n   \n# x\n#\nx\n\nclose 0\n y"),
        "bad line 6\nclose accepted\nbad line 9\n"
    );
}

#[test]
fn long_lines() {
    let digits = |count: usize| "0".repeat(count);
    let receive = format!("receive 0 {}", digits(MAX_LINE - 10));
    assert_eq!(receive.len(), MAX_LINE);
    assert_eq!(after_setup(&receive), "receive accepted\n");
    assert_eq!(
        host(&format!("receive 0 {}\nx\n", digits(MAX_LINE - 9))),
        "bad line 1\nbad line 2\n"
    );
    assert_eq!(
        host(&format!("receive 0 {}\n", digits(100_000))),
        "bad line 1\n"
    );
    assert_eq!(
        after_setup(&format!("#{}\nclose 0", digits(100_000))),
        "close accepted\n"
    );
    assert_eq!(host(&" ".repeat(MAX_LINE)), "");
    assert_eq!(host(&" ".repeat(MAX_LINE + 1)), "bad line 1\n");
    assert_eq!(
        after_setup(&format!("close {}1", digits(MAX_LINE - 7))),
        "close accepted\n"
    );
    assert_eq!(
        after_setup(&format!("receive 0 {}", digits(2 * 8192))),
        "receive accepted\n"
    );
    assert_eq!(
        host(&format!("setup{}", " 0".repeat(10_000))),
        "setup refused 7\n"
    );
}

#[test]
fn pieces_make_no_difference() {
    let long = "x".repeat(MAX_LINE + 5);
    let input = format!("setup\nclose 1\n\nclose 0\nx\n{long}\n#{long}\nwork 7\nclose 2");
    let whole = answer(input.as_bytes());
    for size in [1, 2, 3, 7, 100, 40_000] {
        let (mut feed, mut pieces) = (Feed::default(), Vec::new());
        for piece in input.as_bytes().chunks(size) {
            feed.piece(piece, &mut pieces);
        }
        feed.finish(&mut pieces);
        assert_eq!(pieces, whole);
    }
}
