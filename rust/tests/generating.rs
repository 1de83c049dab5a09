//! The generator and the counts.

use independent::comparing::Tally;
use independent::counts::Counts;
use independent::device::service::{STATUS, UNCONFIGURE};
use independent::generate::generate;
use independent::lines::{Feed, Line};
use independent::{build, memory, Pair};

/// How many calls a text has that the generator counts.
fn calls(text: &[u8]) -> usize {
    text.split(|byte| *byte == b'\n')
        .filter(|line| match Line::read(line) {
            Line::Call(call) => call.is_counted(),
            _ => false,
        })
        .count()
}

#[test]
fn as_many_calls_as_asked() {
    for asked in [0, 1, 2, 3, 100, 5_000] {
        assert_eq!(calls(&generate(7, asked)), asked as usize);
    }
}

#[test]
fn the_same_for_the_same_seed() {
    assert_eq!(generate(1, 500), generate(1, 500));
    assert_ne!(generate(1, 500), generate(2, 500));
}

#[test]
fn counts_of_lines() {
    let mut counts = Counts::default();
    assert!(counts.zeros().contains(&"refusal 3 close".to_string()));
    let mut feed = Feed::default();
    for line in ["setup", "close 9", "x", "drain 2", "receive 1 00"] {
        let mut answer = Vec::new();
        feed.piece(format!("{line}\n").as_bytes(), &mut answer);
        counts.line(line.as_bytes(), &answer);
    }
    let zeros = counts.zeros();
    for name in [
        "refusal 3 close",
        "call close refused",
        "line bad",
        "DS received under 8 bytes bad",
    ] {
        assert!(!zeros.contains(&name.to_string()), "{name}");
    }
    assert_eq!(counts.calls(), 4);
    counts.line(
        b"drain 2",
        b"drain accepted 1\nentry 0000000784030001 0000000000000009\n",
    );
    for name in ["entry kind 16", "entry code 16/3", "entry end with reply"] {
        assert!(!counts.zeros().contains(&name.to_string()), "{name}");
    }
}

/// The answers to a list, each counted with its line.
fn count(list: &str) -> Counts {
    let (mut counts, mut feed) = (Counts::default(), Feed::default());
    for line in list.split_inclusive('\n') {
        let mut answer = Vec::new();
        feed.piece(line.as_bytes(), &mut answer);
        counts.line(line.trim_end().as_bytes(), &answer);
    }
    counts
}

fn receive(message: &[u8]) -> String {
    let digits: String = message.iter().map(|byte| format!("{byte:02x}")).collect();
    format!("receive 0 {digits}\n")
}

/// A block of one page, configured, and memory messages on channel 0.
fn memory_list(messages: &[Vec<u8>]) -> String {
    let mut list = "setup 0 1 0 0 1\n".to_string();
    list += &receive(&build::init_req(1, 0));
    list += "offer 0 0\n";
    list += &receive(&build::reg_ack(build::ours(3), 0));
    for message in messages {
        list += &receive(&build::data(build::ours(3), message));
    }
    list
}

const BLOCK: Pair = Pair {
    addr: 0,
    size: 8_192,
};
const OTHER: Pair = Pair {
    addr: 8_192,
    size: 8_192,
};

/// The counts that a list reaches, of those that begin so.
fn reached(list: &str, start: &str) -> Vec<String> {
    let zeros = count(list).zeros();
    let all = Counts::default().zeros().into_iter();
    all.filter(|name| name.starts_with(start) && !zeros.contains(name))
        .collect()
}

#[test]
fn counts_of_numbers() {
    let cancel = |number| build::request(memory::CANCEL, number, &[]);
    let bad = build::memory(memory::QUERY, 2, 5, &[BLOCK]);
    let list = memory_list(&[bad, cancel(4), cancel(4), cancel(3), cancel(5), cancel(7)]);
    let mut expected = vec![
        "number refused CANCEL equal",
        "number refused CANCEL lower",
        "number first other",
        "number accepted higher by 1",
        "number accepted higher by more",
        "number accepted not above one of bad form",
    ];
    expected.sort();
    let mut names = reached(&list, "number");
    names.sort();
    assert_eq!(names, expected);
    // A second registration, whose first number is not above the first's.
    let again = receive(&build::reg_ack(build::ours(12), 0))
        + &receive(&build::data(build::ours(12), &cancel(0)));
    let list = list + "withdraw 0 0\noffer 0 0\n" + &again;
    let first = [
        "number first 0",
        "number first other",
        "number first not above an earlier registration's",
    ];
    assert_eq!(reached(&list, "number first"), first);
    // A request that a removal would block.
    let remove = build::request(memory::UNCONFIGURE, 2, &[BLOCK]);
    let list = memory_list(&[remove.clone(), remove]);
    assert_eq!(reached(&list, "number refused before").len(), 1);
}

#[test]
fn counts_of_repeats() {
    let requests = [
        build::request(memory::QUERY, 1, &[BLOCK, OTHER, BLOCK]),
        build::request(memory::UNCONFIGURE, 2, &[BLOCK, BLOCK]),
        build::request(memory::CONFIGURE, 3, &[OTHER, OTHER]),
    ];
    let list = memory_list(&requests) + "work 1\nwork 1\nwork 1\n";
    assert_eq!(
        reached(&list, "repeat in"),
        [
            "repeat in CONFIGURE adjacent",
            "repeat in CONFIGURE BLOCKED then BLOCKED",
            "repeat in UNCONFIGURE adjacent",
            "repeat in UNCONFIGURE OK then NOWORK",
            "repeat in QUERY apart",
        ]
    );
}

/// The same of several beginnings, in order.
fn reached_of(list: &str, starts: &[&str]) -> Vec<String> {
    let names = starts.iter().flat_map(|start| reached(list, start));
    let mut names: Vec<String> = names.collect();
    names.sort();
    names
}

#[test]
fn counts_of_the_empty_state() {
    let list = "state\nclose 1\nsetup 1\nstate\ntake\njournal 127\nsetup\ndrain 2\nsetup 1\n\
                journal 128\nsetup\nclose 1\nclose 9\n";
    let starts = [
        "refused 8",
        "setup refused",
        "state shown",
        "refusal",
        "block",
    ];
    let expected = [
        "block list of 0",
        "block list refused no whole blocks",
        "refusal 1 setup",
        "refusal 3 close",
        "refusal 7 setup",
        "refusal 8 close",
        "refusal 8 drain",
        "refusal 8 take",
        "refused 8 after setup was refused 1 drain",
        "refused 8 after setup was refused 7 take",
        "refused 8 before a setup close",
        "setup refused 1 before 7",
        "setup refused 1 with good lists",
        "state shown after a refused setup",
        "state shown before a setup",
    ];
    assert_eq!(reached_of(list, &starts), expected);
}

#[test]
fn counts_of_many_blocks() {
    // 64 blocks of a page each, from 0 on, all configured.
    let blocks: String = (0..64)
        .map(|at| format!(" {} 1 0 0 1", at * 8192u64))
        .collect();
    let pair = |at: u64| Pair {
        addr: at * 8192,
        size: 8192,
    };
    let all: Vec<Pair> = (0..64).map(pair).collect();
    let mut list = format!("setup{blocks}\n");
    list += &receive(&build::init_req(1, 0));
    list += "offer 0 0\n";
    list += &receive(&build::reg_ack(build::ours(3), 0));
    let request = |memory_type, number, pairs: &[Pair]| {
        let request = build::request(memory_type, number, pairs);
        receive(&build::data(build::ours(3), &request))
    };
    // The middle one is looked at first, the last one seventh.
    let searched = list.clone() + &request(memory::QUERY, 1, &[pair(31), pair(63), pair(64)]);
    let names = reached_of(&searched, &["search", "block list", "records"]);
    let expected = [
        "block list of 64",
        "records in QUERY 2 to 15",
        "search found after 1",
        "search found after 7",
        "search in vain after 7",
    ];
    assert_eq!(names, expected);
    list += &request(memory::UNCONFIGURE, 2, &all);
    list += &"work 1\n".repeat(20);
    list += &request(memory::UNCONF_STATUS, 3, &[]);
    list += &request(memory::CANCEL, 4, &[]);
    list += "work 1\ndrain 256\n";
    let starts = [
        "removal",
        "entry 1",
        "STATUS at",
        "records",
        "result/status from",
    ];
    let expected = [
        "STATUS at a record from 16 on open",
        "entry 12 of 64 records",
        "entry 15 code 0 of a block from 16 on",
        "entry 15 code 0 of a record from 16 on",
        "records in UNCONFIGURE 64",
        "removal of 17 to 64 records CANCELLED from record 16 on",
        "result/status from record 16 on 0/1",
        "result/status from record 16 on 3/2",
    ];
    assert_eq!(reached_of(&list, &starts), expected);
}

#[test]
fn counts_of_devices() {
    let lists = "device 1 1 1 6100\ndevice 1\nsetup x\nsetup\ndevice 1 2 0 00\nsetup\n";
    let met = [
        "device list of 1",
        "device list refused configured",
        "device lines kept by a bad setup line",
        "device line bad missing field",
    ];
    let mut names = reached(lists, "device l");
    names.sort();
    let mut expected = met.to_vec();
    expected.sort();
    assert_eq!(names, expected);
    let mut list = "device 1 1 1 6100\nsetup\n".to_string() + &receive(&build::init_req(1, 0));
    list += "offer 0 1\n";
    list += &receive(&build::reg_ack(build::ours(3), 0));
    for data in [
        build::device(1, 1, UNCONFIGURE, b"a\0"),
        build::device(1, 2, STATUS, b"a\0"),
        build::device(0, 1, STATUS, b"a"),
        vec![0; 5],
    ] {
        list += &receive(&build::data(build::ours(3), &data));
    }
    list += "drain 256\n";
    for name in [
        "device UNCONFIGURE busy configured -> BLOCKED",
        "device unknown STATUS name listed",
        "device bad form no zero",
        "device data of bytes 5",
        "device number equal",
        "device number lower",
        "entry code 18/2",
        "entry code 10 of service 1 1",
    ] {
        assert_eq!(reached(&list, name), [name]);
    }
}

#[test]
fn counts_of_orders() {
    let mut list = "setup\n".to_string() + &receive(&build::init_req(1, 0));
    list += "offer 0 2\n";
    list += &receive(&build::reg_ack(build::ours(3), 0));
    let request = receive(&build::data(build::ours(3), &build::shutdown(1, 0)));
    list += &format!("permit 1 1\npermit 2 1\n{request}{request}permit 2 0\n{request}");
    list += &receive(&build::data(build::ours(3), &[0; 7]));
    list += "withdraw 0 2\ntake\ntake\npermit 2 2\ntake 1\ndrain 256\n";
    for name in [
        "permit refused 1",
        "permit 2 permitted",
        "permit 2 denied",
        "shutdown request success",
        "shutdown request pending by shutdown",
        "shutdown request denied while an order waits",
        "shutdown request wrong length while an order waits",
        "shutdown data of bytes 7",
        "shutdown delay 0",
        "order reply success",
        "order reply failure denied",
        "order reply failure pending",
        "order reply invalid message",
        "order kept by permit",
        "order kept by withdraw",
        "order taken shutdown",
        "refusal 6 take",
        "permit line bad neither 0 nor 1",
        "take line bad further field",
        "entry code 19/1",
        "entry kind 20",
        "entry code 21/2",
    ] {
        assert_eq!(reached(&list, name), [name]);
    }
    let others = ["panic ", "order kept by close", "show of service 2"];
    for name in others {
        assert_eq!(reached(&list, name), [""; 0]);
    }
}

#[test]
fn counts_of_peers() {
    let mut list = "peer 1 2 6100\npeer 1 2 6200\nsetup\n".to_string();
    list += &receive(&build::init_req(1, 0));
    for (handle, major, minor, id) in [
        (7, 1, 3, b"a\0"),
        (7, 1, 3, b"b\0"),
        (8, 1, 3, b"a\0"),
        (1 << 63, 2, 3, b"b\0"),
        (8, 0, 3, b"b\0"),
        (8, 2, 3, b"b\0"),
        (8, 2, 3, b"c\0"),
        (0, 1, 1, b"b\0"),
    ] {
        list += &receive(&build::reg_req(handle, major, minor, id));
    }
    let data = build::data(7, b"x");
    let unreg = receive(&build::of_handle(6, 7));
    list += &receive(&data);
    list += &receive(&data).replace("receive", "show");
    list += &format!("{unreg}{unreg}{}", receive(&data));
    list += "close 0\ndrain 256\npeer 1\npeer 1 0 61\nsetup x\nsetup\n";
    for name in [
        "peer REG_REQ acknowledged with our minor",
        "peer REG_REQ acknowledged with their minor",
        "peer REG_REQ DUP by handle",
        "peer REG_REQ DUP by id",
        "peer REG_REQ DUP by top bit",
        "peer DUP before higher major",
        "peer REG_REQ lower major",
        "peer REG_REQ higher major",
        "peer REG_REQ not listed",
        "peer handle 0",
        "peer live on a channel 2",
        "handle of DATA a peer's live",
        "handle of DATA a peer's ended",
        "handle of UNREG a peer's live",
        "handle of UNREG a peer's ended",
        "show of a peer's data a part",
        "call show part",
        "peers dropped by close",
        "entry kind 22",
        "entry kind 23",
        "entry kind 24",
        "DS sent REG_ACK",
        "id list of 2 to 15",
        "id list refused no zero at the end",
        "peer line bad missing field",
        "peer lines kept by a bad setup line",
    ] {
        assert_eq!(reached(&list, name), [name]);
    }
    for name in [
        "peer REG_REQ DUP by ninth",
        "peers dropped by INIT_REQ",
        "peer live on a channel 3",
    ] {
        assert_eq!(reached(&list, name), [""; 0]);
    }
}

fn piece(bytes: &[u8]) -> String {
    receive(bytes).replace("receive", "piece")
}

#[test]
fn counts_of_fronts() {
    let (init, over) = (build::init_req(1, 0), build::with_length(9, 4_097, &[7, 7]));
    let mut list = "setup\npiece 0\npiece 4 00\nreopen 4\n".to_string();
    list += &piece(&init[..3]);
    list += "piece 0\nstate\nclose 0\n";
    list += &piece(&init[3..]);
    let two = [&init[..], &init, &init[..2]].concat();
    list += &format!("{}{}", piece(&two), piece(&two[12..]));
    list += &piece(&two[24..]);
    list += "reopen 0\npiece\nreopen x\n";
    list += &piece(&over[..7]);
    list += &piece(&over[7..]);
    list += &piece(&init);
    list += "permit 3 0\nsetup x\nreopen 0\n";
    list += &"permit 2 1\n".repeat(60);
    list += &format!("{0}{0}drain 2\n{0}", piece(&init));
    list += "output 9\npiece 9\nreopen 0\noutput 2592\npiece 0 00\nsetup 1\npiece 0\n";
    for name in [
        "piece of 0 bytes while empty",
        "piece of 0 bytes while keeping",
        "piece of 0 bytes refused 2",
        "piece of 0 bytes refused 8",
        "piece refused 2 before 3",
        "piece kept 3",
        "piece kept 2",
        "piece kept 7",
        "piece dropped an INIT_REQ",
        "piece taken in part",
        "piece left a whole message",
        "piece left an unfinished message",
        "piece left bytes to drop",
        "rest of a piece offered as it was",
        "rest of a piece not offered",
        "message cut at byte 3",
        "message cut at byte 7",
        "message in pieces INIT_REQ",
        "message in pieces with a payload_len above 4096",
        "message of pieces 1",
        "message of pieces 2",
        "message given with a reply",
        "message given without a reply",
        "message payload_len 4097",
        "dropping began on a ready channel",
        "dropping began after 7 bytes kept",
        "dropping began with bytes after it",
        "reopened while dropping",
        "reopened while empty",
        "reopened while keeping 1 to 7 bytes",
        "reopened with a short output",
        "refused piece offered again while full",
        "refused piece offered again after a drain of one entry",
        "kept part stays after close",
        "dropping stays after permit",
        "front emptied of a kept part by a refused setup",
        "front kept by a bad setup line",
        "state shown with a kept part",
        "piece line bad missing field",
        "reopen line bad number",
        "refused 8 after setup was refused 7 piece",
        "DS sent INIT_ACK",
        "DS received INIT_REQ good",
        "DS received DATA bad",
    ] {
        assert_eq!(reached(&list, name), [name]);
    }
    for name in [
        "message cut at byte 2",
        "piece refused 1",
        "refused piece offered again after a drain of more",
        "message payload_len 4096",
    ] {
        assert_eq!(reached(&list, name), [""; 0]);
    }
}

#[test]
fn counts_of_made_states() {
    let mut counts = Counts::default();
    counts.made("close refused 5\nsetup refused 7\nwork accepted 1\n");
    let zeros = counts.zeros();
    assert!(zeros.contains(&"bounds: refusal 8".to_string()));
    assert!(!zeros.contains(&"bounds: refusal 5".to_string()));
    counts.made("drain refused 8\n");
    assert!(!counts.zeros().iter().any(|name| name.starts_with("made")));
}
