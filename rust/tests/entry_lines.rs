//! The lines that `--entries` writes: each row and alternative of README's
//! table, and where they stand in what the reader prints.

mod common;
use common::{file, many, numbered, words, Entry, BLOCK_LIST, MARK};
use independent::reader::Edition::{New, Old};
use independent::reader::{output, read, read_entries, Edition, EntryLine};
use independent::saved::write_long;
use std::fs::{self, File};
use std::path::{Path, PathBuf};
use std::process::{Command, Output, Stdio};

/// Number and fields of entries, and their lines, which are the same in both
/// editions.
#[rustfmt::skip]
const LINES: [(u64, Entry, &str); 52] = [
    (5, [1, 3, 0, 0, 0, 0, 0], "5 channel 3: ready"),
    (6, [2, 1, 0, 0, 0, 0, 0], "6 channel 1: closed by the host"),
    (7, [2, 1, 0, 0, 0, 0, 1], "7 channel 1: closed by a message"),
    (8, [3, 2, 0, 0, 0, 4, 0], "8 channel 2: version refused, major 4 asked, now closed"),
    (9, [4, 3, 1, 0, 0, 0, 0], "9 channel 3: service 1 offered"),
    (10, [5, 3, 1, 0, 0, 6, 77], "10 channel 3: service 1 registered, handle 77, minor 6"),
    (11, [6, 0, 3, 0, 0, 0, 0], "11 channel 0: offer of service 3 refused"),
    (12, [7, 0, 2, 0, 0, 0, 0], "12 channel 0: service 2 ended"),
    (13, [8, 1, 3, 0, 0, 0, 0], "13 channel 1: data for service 3 delivered to the host"),
    (14, [9, 1, 0, 0, 0, 0, 99], "14 channel 1: data refused, handle 99"),
    (15, [10, 2, 1, 0, 3, 0, 44], "15 channel 2: device request 44 answered, result 3, nothing changed"),
    (16, [10, 2, 1, 0, 1, 0, 45], "16 channel 2: device request 45 answered, result 1, nothing changed"),
    (17, [10, 2, 0, 0, 1, 0, 46], "17 channel 2: memory request 46 answered ERROR"),
    (18, [10, 2, 0, 0, 2, 0, 47], "18 channel 2: memory request 47 answered BLOCKED"),
    (19, [10, 2, 0, 0, 0, 0, 48], "19 channel 2: memory request 48 answered, nothing changed"),
    (20, [11, 2, 0, 0, 0, 0, 0b1], "20 channel 2: blocks configured: 0"),
    (21, [11, 2, 0, 0, 0, 0, 0b10_0110], "21 channel 2: blocks configured: 1 2 5"),
    (22, [12, 3, 0, 0, 0, 1, 9], "22 channel 3: removal begun, 1 record, request 9"),
    (23, [12, 3, 0, 0, 0, 2, 9], "23 channel 3: removal begun, 2 records, request 9"),
    (24, [13, 3, 0, 0, 0, 0, 10], "24 channel 3: removal marked cancelled by request 10"),
    (25, [14, 1, 0, 0, 0, 1, 0], "25 channel 1: 1 page collected"),
    (26, [14, 1, 0, 0, 0, 30, 0], "26 channel 1: 30 pages collected"),
    (27, [15, 1, 0, 0, 0, 1, 0], "27 channel 1: record 0 settled, block 0 now unconfigured, last 1 page moved"),
    (28, [15, 1, 0, 0, 0, 8, 3], "28 channel 1: record 0 settled, block 3 now unconfigured, last 8 pages moved"),
    (29, [15, 1, 0, 0, 4, 0, 3], "29 channel 1: record 0 settled, block 3 was unconfigured before"),
    (30, [16, 2, 0, 0, 0, 1, 9], "30 channel 2: removal ended, all settled, request 9, reply sent"),
    (31, [16, 2, 0, 0, 0, 0, 9], "31 channel 2: removal ended, all settled, request 9, no reply"),
    (32, [16, 2, 0, 0, 1, 1, 9], "32 channel 2: removal failed at an unknown block, request 9, reply sent"),
    (33, [16, 2, 0, 0, 1, 0, 9], "33 channel 2: removal failed at an unknown block, request 9, no reply"),
    (34, [16, 2, 0, 0, 3, 1, 9], "34 channel 2: removal ended as cancelled, request 9, reply sent"),
    (35, [16, 2, 0, 0, 3, 0, 9], "35 channel 2: removal ended as cancelled, request 9, no reply"),
    (36, [16, 2, 0, 0, 5, 1, 9], "36 channel 2: removal failed at permanent pages, request 9, reply sent"),
    (37, [16, 2, 0, 0, 5, 0, 9], "37 channel 2: removal failed at permanent pages, request 9, no reply"),
    (38, [16, 2, 0, 0, 2, 1, 9], "38 channel 2: removal ended, code 2, request 9, reply sent"),
    (39, [16, 2, 0, 0, 7, 0, 9], "39 channel 2: removal ended, code 7, request 9, no reply"),
    (40, [17, 0, 0, 0, 0, 0, 8], "40 channel 0: message of type 8 noted"),
    (41, [18, 1, 0, 0, 2, 31, 1], "41 channel 1: device 31, result 2, is configured"),
    (42, [18, 1, 0, 0, 0, 30, 0], "42 channel 1: device 30, result 0, is unconfigured"),
    (43, [19, 0, 2, 0, 0, 0, 0], "43: requests to service 2 denied from now on"),
    (44, [19, 0, 3, 0, 1, 0, 0], "44: requests to service 3 permitted from now on"),
    (45, [20, 0, 0, 0, 0, 0, 0], "45: order taken"),
    (46, [21, 1, 2, 0, 0, 0, 3000], "46 channel 1: shutdown ordered, delay 3000 milliseconds"),
    (46, [21, 1, 2, 0, 0, 0, 0], "46 channel 1: shutdown ordered, delay 0 milliseconds"),
    (46, [21, 1, 2, 0, 0, 0, 1], "46 channel 1: shutdown ordered, delay 1 milliseconds"),
    (47, [21, 1, 3, 0, 0, 0, 0], "47 channel 1: panic ordered"),
    (47, [21, 1, 2, 0, 1, 0, 0], "47 channel 1: request to service 2 answered, result 1"),
    (47, [21, 1, 3, 0, 2, 0, 0], "47 channel 1: request to service 3 answered, result 2"),
    (48, [22, 2, 0, 15, 0, 7, 66], "48 channel 2: peer registered id 15, handle 66, minor 7"),
    (49, [23, 2, 0, 0, 0, 0, 66], "49 channel 2: peer's registration ended, handle 66"),
    (50, [24, 2, 0, 0, 0, 0, 0], "50 channel 2: data for a peer's service delivered to the host"),
    (1, MARK, "1: edition mark"),
    (4_294_967_295, [1, 0, 0, 0, 0, 0, 0], "4294967295 channel 0: ready"),
];

/// Entries that no agent writes but the reader takes for good: the other values
/// of fields that choose the words.
#[rustfmt::skip]
const NOT_WRITTEN: [(u64, Entry, &str); 31] = [
    (2, [2, 1, 0, 0, 0, 0, u64::MAX], "2 channel 1: closed by a message"),
    (3, [10, 2, 2, 0, 0, 0, 45], "3 channel 2: request 45 to service 2 answered, code 0"),
    (3, [10, 2, 2, 0, 1, 0, 46], "3 channel 2: request 46 to service 2 answered, code 1"),
    (4, [10, 2, 3, 0, 2, 0, 47], "4 channel 2: request 47 to service 3 answered, code 2"),
    (4, [10, 2, 3, 0, 7, 0, 47], "4 channel 2: request 47 to service 3 answered, code 7"),
    (5, [10, 2, 0, 0, 3, 0, 48], "5 channel 2: request 48 to service 0 answered, code 3"),
    (5, [10, 2, 0, 0, 7, 0, 48], "5 channel 2: request 48 to service 0 answered, code 7"),
    (6, [10, 2, 1, 0, 0, 0, 49], "6 channel 2: device request 49 answered, result 0, nothing changed"),
    (6, [10, 2, 1, 0, 7, 0, 49], "6 channel 2: device request 49 answered, result 7, nothing changed"),
    (7, [11, 2, 0, 0, 0, 0, 0], "7 channel 2: blocks configured:"),
    (8, [12, 3, 0, 0, 0, 0, 9], "8 channel 3: removal begun, 0 records, request 9"),
    (9, [14, 1, 0, 0, 0, 0, 0], "9 channel 1: 0 pages collected"),
    (10, [15, 1, 0, 0, 0, 0, 2], "10 channel 1: record 0 settled, block 2 now unconfigured, last 0 pages moved"),
    (11, [15, 1, 0, 0, 4, 3, 2], "11 channel 1: record 0 settled, block 2 was unconfigured before"),
    (11, [15, 1, 0, 0, 1, 3, 2], "11 channel 1: record 0 settled, block 2 left as it was, code 1"),
    (11, [15, 1, 0, 0, 3, 0, 2], "11 channel 1: record 0 settled, block 2 left as it was, code 3"),
    (11, [15, 1, 0, 0, 5, 1, 2], "11 channel 1: record 0 settled, block 2 left as it was, code 5"),
    (11, [15, 1, 0, 0, 7, 0, 2], "11 channel 1: record 0 settled, block 2 left as it was, code 7"),
    (12, [16, 2, 0, 0, 4, 2, 9], "12 channel 2: removal ended, code 4, request 9, no reply"),
    (13, [16, 2, 0, 0, 6, 65535, 9], "13 channel 2: removal ended, code 6, request 9, no reply"),
    (14, [18, 1, 0, 0, 0, 30, 2], "14 channel 1: device 30, result 0, is configured"),
    (14, [18, 1, 0, 0, 7, 30, 0], "14 channel 1: device 30, result 7, is unconfigured"),
    (15, [19, 0, 0, 0, 1, 0, 0], "15: requests to service 0 permitted from now on"),
    (15, [19, 0, 1, 0, 0, 0, 0], "15: requests to service 1 denied from now on"),
    (15, [19, 0, 2, 0, 2, 0, 0], "15: requests to service 2 denied from now on"),
    (15, [19, 0, 0, 0, 7, 0, 0], "15: requests to service 0 denied from now on"),
    (16, [21, 1, 0, 0, 0, 0, 5], "16 channel 1: panic ordered"),
    (16, [21, 1, 1, 0, 0, 0, 5], "16 channel 1: panic ordered"),
    (16, [21, 1, 3, 0, 0, 0, 5], "16 channel 1: panic ordered"),
    (16, [21, 1, 0, 0, 4, 0, 5], "16 channel 1: request to service 0 answered, result 4"),
    (16, [21, 1, 2, 0, 7, 0, 5], "16 channel 1: request to service 2 answered, result 7"),
];

fn line(edition: Edition, number: u64, entry: Entry) -> String {
    EntryLine::new(edition, words(number, entry)).to_string()
}

#[test]
fn each_line_of_the_table() {
    for (number, entry, expected) in LINES.into_iter().chain(NOT_WRITTEN) {
        for edition in Edition::ALL {
            assert_eq!(line(edition, number, entry), expected);
        }
    }
}

#[test]
fn the_greatest_numbers() {
    let registered = [5, 3, 3, 0, 0, 65_535, u64::MAX];
    assert_eq!(
        line(New, 4_294_967_295, registered),
        "4294967295 channel 3: service 3 registered, handle 18446744073709551615, minor 65535"
    );
    assert_eq!(
        line(New, 4_294_967_295, [11, 3, 0, 0, 0, 0, u64::MAX]),
        "4294967295 channel 3: blocks configured: 0 1 2 3 4 5 6 7 8 9 10 11 12 13 14 15 16 17 18 \
         19 20 21 22 23 24 25 26 27 28 29 30 31 32 33 34 35 36 37 38 39 40 41 42 43 44 45 46 47 48 \
         49 50 51 52 53 54 55 56 57 58 59 60 61 62 63"
    );
    assert_eq!(
        line(New, 4_294_967_295, [15, 3, 0, 0, 0, 65_535, 0b111111_111111]),
        "4294967295 channel 3: record 63 settled, block 63 now unconfigured, last 65535 pages moved"
    );
    assert_eq!(
        line(New, 4_294_967_295, [10, 3, 3, 0, 7, 0, u64::MAX]),
        "4294967295 channel 3: request 18446744073709551615 to service 3 answered, code 7"
    );
    assert_eq!(
        line(New, 4_294_967_295, [21, 3, 2, 0, 0, 0, u64::MAX]),
        "4294967295 channel 3: shutdown ordered, delay 18446744073709551615 milliseconds"
    );
}

#[test]
fn kind_15_in_each_edition() {
    // 01: the record in its field, the block is w.
    assert_eq!(
        line(Old, 9, [15, 2, 0, 14, 0, 5, 13]),
        "9 channel 2: record 14 settled, block 13 now unconfigured, last 5 pages moved"
    );
    assert_eq!(
        line(Old, 9, [15, 2, 0, 14, 4, 0, 13]),
        "9 channel 2: record 14 settled, block 13 was unconfigured before"
    );
    assert_eq!(
        line(Old, 9, [15, 2, 0, 14, 6, 2, 13]),
        "9 channel 2: record 14 settled, block 13 left as it was, code 6"
    );
    // Ticket 8: the block in the low six bits of w, the record in the next six.
    assert_eq!(
        line(New, 9, [15, 2, 0, 0, 0, 5, 0b011110_101101]),
        "9 channel 2: record 30 settled, block 45 now unconfigured, last 5 pages moved"
    );
    assert_eq!(
        line(New, 9, [15, 2, 0, 0, 4, 0, 0b011110_101101]),
        "9 channel 2: record 30 settled, block 45 was unconfigured before"
    );
    assert_eq!(
        line(New, 9, [15, 2, 0, 0, 6, 2, 0b011110_101101]),
        "9 channel 2: record 30 settled, block 45 left as it was, code 6"
    );
}

/// What the reader prints with `--entries`.
fn print(file: &[u8]) -> String {
    let mut lines = Vec::new();
    let verdict = read_entries(file, &mut lines).unwrap();
    assert_eq!(verdict, read(file).unwrap());
    lines.extend(output(&verdict));
    String::from_utf8(lines).unwrap()
}

/// What it prints for the day, as README shows it.
const DAY: &str = "1: edition mark
2 channel 2: ready
3 channel 2: service 0 offered
4 channel 2: service 0 registered, handle 9223372036854775811, minor 0
5 channel 2: removal begun, 1 record, request 9
6 channel 2: 3 pages collected
7 channel 2: record 0 settled, block 0 now unconfigured, last 1 page moved
8 channel 2: removal ended, all settled, request 9, reply sent
channel 0 closed
channel 1 closed
channel 2 ready
service 0 registered 9223372036854775811 0
channel 3 closed
block 0 unconfigured
block 1 configured
entries 8
";

/// The day in the old edition.
const OLD_DAY: &str = "1 channel 2: ready
2 channel 2: service 0 offered
3 channel 2: service 0 registered, handle 2, minor 0
4 channel 2: removal begun, 1 record, request 9
5 channel 2: 3 pages collected
6 channel 2: record 0 settled, block 0 now unconfigured, last 1 page moved
7 channel 2: removal ended, all settled, request 9, reply sent
channel 0 closed
channel 1 closed
channel 2 ready
service 0 registered 2 0
channel 3 closed
block 0 unconfigured
block 1 configured
entries 7
";

/// The old day's entries: C1 to C7 of 01.
const ENTRIES: [[u64; 2]; 7] = [
    [0x0000_0001_0C00_0000, 0],
    [0x0000_0002_2400_0000, 0],
    [0x0000_0003_2C00_0000, 2],
    [0x0000_0004_6400_0001, 9],
    [0x0000_0005_7400_0003, 0],
    [0x0000_0006_7C00_0001, 0],
    [0x0000_0007_8400_0001, 9],
];

fn day_file() -> Vec<u8> {
    file(&BLOCK_LIST[..10], &ENTRIES)
}

/// The saved file of README's example.
fn example() -> PathBuf {
    Path::new(env!("CARGO_MANIFEST_DIR")).join("../examples/day.journal")
}

#[test]
fn the_day() {
    assert_eq!(print(&fs::read(example()).unwrap()), DAY);
    assert_eq!(print(&day_file()), OLD_DAY);
}

#[test]
fn only_the_entries_before_the_first_bad_one_have_lines() {
    let lines: Vec<&str> = OLD_DAY.split_inclusive('\n').take(7).collect();
    for bad in 0..7 {
        let mut entries = ENTRIES;
        entries[bad][0] |= 1 << 63;
        let expected = format!("{}bad entry at {}\n", lines[..bad].concat(), bad + 1);
        assert_eq!(print(&file(&BLOCK_LIST[..10], &entries)), expected);
    }
    // A cut entry is bad, and so has no line.
    let whole = day_file();
    for length in 1..16 {
        let expected = format!("{}bad entry at 7\n", lines[..6].concat());
        assert_eq!(print(&whole[..whole.len() - length]), expected);
    }
}

#[test]
fn bad_blocks_alone() {
    let ready = numbered(&[[1, 2, 0, 0, 0, 0, 0]]);
    assert_eq!(print(&[]), "bad blocks\n");
    assert_eq!(print(&file(&[1], &ready)), "bad blocks\n");
    assert_eq!(print(&file(&[0, 0, 0, 0, 0], &ready)), "bad blocks\n");
    assert_eq!(print(&file(&many(65), &ready)), "bad blocks\n");
    assert_eq!(print(&file(&many(65), &numbered(&[MARK]))), "bad blocks\n");
}

#[test]
fn lines_of_an_old_journal_of_many_blocks() {
    let entries = numbered(&[
        [1, 2, 0, 0, 0, 0, 0],
        [4, 2, 0, 0, 0, 0, 0],
        [5, 2, 0, 0, 0, 0, 2],
        [12, 2, 0, 0, 0, 2, 9],
        [15, 2, 0, 0, 0, 1, 16],
        [15, 2, 0, 1, 4, 0, 63],
        [11, 2, 0, 0, 0, 0, 1 << 63 | 1 << 16],
    ]);
    let lines = "1 channel 2: ready
2 channel 2: service 0 offered
3 channel 2: service 0 registered, handle 2, minor 0
4 channel 2: removal begun, 2 records, request 9
5 channel 2: record 0 settled, block 16 now unconfigured, last 1 page moved
6 channel 2: record 1 settled, block 63 was unconfigured before
7 channel 2: blocks configured: 16 63
channel 0 closed
";
    let printed = print(&file(&many(64), &entries));
    assert!(printed.starts_with(lines), "{printed}");
    assert!(printed.ends_with("\nblock 63 configured\nentries 7\n"));
    // With 17 blocks the sixth entry is bad, and the five before it have lines.
    let lines: Vec<&str> = lines.split_inclusive('\n').take(5).collect();
    let expected = format!("{}bad entry at 6\n", lines.concat());
    assert_eq!(print(&file(&many(17), &entries)), expected);
}

#[test]
fn without_entries_there_are_no_lines() {
    for words in [&[][..], &BLOCK_LIST] {
        let file = file(words, &[]);
        assert_eq!(print(&file).as_bytes(), output(&read(&*file).unwrap()));
    }
}

#[test]
fn a_long_file_has_a_line_for_each_entry() {
    let mut bytes = Vec::new();
    // More than one piece of 2^18 bytes.
    write_long(20_000, &mut bytes).unwrap();
    let printed = print(&bytes);
    // The entries after the count and 15 words of blocks.
    let (entries, _) = bytes[16 * 8..].as_chunks::<16>();
    let word = |half: &[u8]| u64::from_be_bytes(half.try_into().unwrap());
    let lines = entries.iter().map(|entry| {
        let entry = EntryLine::new(New, [word(&entry[..8]), word(&entry[8..])]);
        format!("{entry}\n")
    });
    let lines: Vec<String> = lines.collect();
    assert_eq!(lines.len(), 20_000);
    let shown = String::from_utf8(output(&read(&*bytes).unwrap())).unwrap();
    assert!(printed == lines.concat() + &shown);
}

/// The program's answer to the example.
fn run(arguments: &[&str]) -> Output {
    let input = Stdio::from(File::open(example()).unwrap());
    let mut program = Command::new(env!("CARGO_BIN_EXE_reader"));
    program.args(arguments).stdin(input).output().unwrap()
}

#[test]
fn the_program() {
    let with = run(&["--entries"]);
    assert!(with.status.success());
    assert_eq!(String::from_utf8(with.stdout).unwrap(), DAY);
    let without = run(&[]);
    assert!(without.status.success());
    let shown = DAY.find("channel 0 closed").unwrap();
    assert_eq!(String::from_utf8(without.stdout).unwrap(), DAY[shown..]);
    for wrong in [&["--entry"][..], &["--entries", "x"], &[""]] {
        let ended = run(wrong);
        assert_eq!(ended.status.code(), Some(2));
        assert!(ended.stdout.is_empty());
    }
}
