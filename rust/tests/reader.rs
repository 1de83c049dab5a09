//! The reader of saved entries: worked examples of each test of ticket 3, in
//! both editions of ticket 8. The entries stand here as an old journal has
//! them; what is judged of them is judged in the new edition too.

mod common;
use common::{file, many, numbered, words, Entry, BLOCK_LIST, MARK};
use independent::generate::generate;
use independent::lines::{Call, Host, Line};
use independent::reader::{output, read};
use independent::saved::write_long;
use std::io::{self, Read};

/// The top bit of our handles.
const OURS: u64 = 1 << 63;

/// What the reader prints for a file.
fn print(file: &[u8]) -> String {
    String::from_utf8(output(&read(file).unwrap())).unwrap()
}

/// What it prints for entries numbered from 1, over the blocks A (4 pages), B
/// (2), C (3, unconfigured) and D (2).
fn print_entries(entries: &[Entry]) -> String {
    print(&file(&BLOCK_LIST, &numbered(entries)))
}

/// The new edition of an old journal's entry: a handle has the top bit, and the
/// number after the mark; kind 15 has its record in w.
fn new_edition(entry: &Entry) -> Entry {
    let mut new = *entry;
    match entry[0] {
        5 | 9 => new[6] = (entry[6] ^ OURS).wrapping_add(1),
        15 => (new[3], new[6]) = (0, entry[3] << 6 | entry[6]),
        _ => {}
    }
    new
}

/// The new edition of an old journal: its mark, then the entries.
fn new_journal(entries: &[Entry]) -> Vec<Entry> {
    let mark = [MARK].into_iter();
    mark.chain(entries.iter().map(new_edition)).collect()
}

/// Whether the last of the entries is good; those before it are.
fn last_is_good(entries: &[Entry]) -> bool {
    let (_, before) = entries.split_last().unwrap();
    let count = before.len();
    assert!(print_entries(before).ends_with(&format!("\nentries {count}\n")));
    let printed = print_entries(entries);
    let bad = printed == format!("bad entry at {}\n", count + 1);
    assert!(bad || printed.ends_with(&format!("\nentries {}\n", count + 1)));
    !bad
}

/// Whether the last entry is good, in both editions alike.
fn is_good(before: &[Entry], last: Entry) -> bool {
    let all = [before, &[last]].concat();
    let good = last_is_good(&all);
    assert_eq!(last_is_good(&new_journal(&all)), good, "{all:?}");
    good
}

const DAY: [[u64; 2]; 7] = [
    [0x0000_0001_0C00_0000, 0],
    [0x0000_0002_2400_0000, 0],
    [0x0000_0003_2C00_0000, 2],
    [0x0000_0004_6400_0001, 9],
    [0x0000_0005_7400_0003, 0],
    [0x0000_0006_7C00_0001, 0],
    [0x0000_0007_8400_0001, 9],
];

const NEW_DAY: [[u64; 2]; 8] = [
    [0x0000_0001_F800_0000, 0],
    [0x0000_0002_0C00_0000, 0],
    [0x0000_0003_2400_0000, 0],
    [0x0000_0004_2C00_0000, OURS | 3],
    [0x0000_0005_6400_0001, 9],
    [0x0000_0006_7400_0003, 0],
    [0x0000_0007_7C00_0001, 0],
    [0x0000_0008_8400_0001, 9],
];

#[test]
fn the_day() {
    let expected = |handle: &str, entries: u64| {
        format!(
            "channel 0 closed\nchannel 1 closed\nchannel 2 ready\n\
             service 0 registered {handle} 0\nchannel 3 closed\nblock 0 unconfigured\n\
             block 1 configured\nentries {entries}\n"
        )
    };
    let blocks = &BLOCK_LIST[..10];
    assert_eq!(print(&file(blocks, &DAY)), expected("2", 7));
    let new = expected("9223372036854775811", 8);
    assert_eq!(print(&file(blocks, &NEW_DAY)), new);
}

#[test]
fn the_day_entry_by_entry() {
    let registered = "ready\nservice 0 registered 2 0";
    for (count, channel, block) in [
        (0, "closed", "configured"),
        (1, "ready", "configured"),
        (2, "ready\nservice 0 offered 2", "configured"),
        (3, registered, "configured"),
        (4, registered, "configured"),
        (5, registered, "configured"),
        (6, registered, "unconfigured"),
    ] {
        let expected = format!(
            "channel 0 closed\nchannel 1 closed\nchannel 2 {channel}\nchannel 3 closed\n\
             block 0 {block}\nblock 1 configured\nentries {count}\n"
        );
        assert_eq!(print(&file(&BLOCK_LIST[..10], &DAY[..count])), expected);
        // The mark changes nothing but the count and the handle.
        let new = expected
            .replace("offered 2", "offered 9223372036854775811")
            .replace("registered 2", "registered 9223372036854775811")
            .replace(
                &format!("entries {count}"),
                &format!("entries {}", count + 1),
            );
        assert_eq!(print(&file(&BLOCK_LIST[..10], &NEW_DAY[..count + 1])), new);
    }
}

#[test]
fn the_day_cut_at_every_length() {
    let whole = file(&BLOCK_LIST[..10], &DAY);
    assert_eq!(whole.len(), 8 + 80 + 7 * 16);
    let new = file(&BLOCK_LIST[..10], &NEW_DAY);
    let old = (0..whole.len()).map(|length| &whole[..length]);
    for cut in old.chain((0..new.len()).map(|length| &new[..length])) {
        let printed = print(cut);
        match cut.len().checked_sub(88) {
            None => assert_eq!(printed, "bad blocks\n"),
            Some(entries) if entries % 16 == 0 => {
                assert!(printed.ends_with(&format!("\nentries {}\n", entries / 16)));
            }
            Some(entries) => {
                assert_eq!(printed, format!("bad entry at {}\n", entries / 16 + 1));
            }
        }
    }
    // A bad entry before the cut one comes first.
    let mut bad = whole[..190].to_vec();
    bad[88 + 3] = 2;
    assert_eq!(print(&bad), "bad entry at 1\n");
}

/// Gives an input a few bytes at a time.
struct Slowly<'a>(&'a [u8], usize);

impl Read for Slowly<'_> {
    fn read(&mut self, buffer: &mut [u8]) -> io::Result<usize> {
        let length = self.1.min(buffer.len());
        self.0.read(&mut buffer[..length])
    }
}

#[test]
fn pieces_make_no_difference() {
    let mut long = Vec::new();
    // More than one piece of 2^18 bytes.
    write_long(20_000, &mut long).unwrap();
    long.truncate(long.len() - 3);
    let day = file(&BLOCK_LIST[..10], &DAY);
    for size in [1, 7, 15, 16, 17, 1 << 14, 1 << 20] {
        let slowly = |file| output(&read(Slowly(file, size)).unwrap());
        assert_eq!(slowly(&day), print(&day).as_bytes());
        assert_eq!(slowly(&long), b"bad entry at 20000\n");
    }
}

#[test]
fn block_lists() {
    let closed = "channel 0 closed\nchannel 1 closed\nchannel 2 closed\nchannel 3 closed\n";
    assert_eq!(print(&[0; 8]), format!("{closed}entries 0\n"));
    let many = many(65);
    let journals = [&[][..], &[READY], &[MARK]].map(numbered);
    for blocks in [16, 17, 20, 63, 64] {
        let listed: String = (0..blocks)
            .map(|block| format!("block {block} configured\n"))
            .collect();
        for journal in &journals {
            let printed = print(&file(&many[..blocks * 5], journal));
            let entries = journal.len();
            assert!(printed.ends_with(&format!("closed\n{listed}entries {entries}\n")));
        }
    }
    // Over 64 blocks are bad at once, whatever follows.
    for journal in &journals {
        assert_eq!(print(&file(&many, journal)), "bad blocks\n");
    }
    assert_eq!(print(&325u64.to_be_bytes()), "bad blocks\n");
    assert_eq!(print(&326u64.to_be_bytes()), "bad blocks\n");
    for list in [
        &[1][..],
        &[0, 1, 0, 0],
        &[0, 1, 0, 0, 2],
        &[0, 0, 0, 0, 0],
        &[1, 1, 0, 0, 0],
        &[0, 2, 0, 1, 0],
        &[0, 2, 0, 0, 1, 8192, 1, 0, 0, 1],
    ] {
        assert_eq!(print(&file(list, &DAY)), "bad blocks\n");
    }
    // Counts that agree with a good one in fewer bits.
    for high in [1 << 8, 1 << 32, 1 << 61, 1 << 63, u64::MAX - 10] {
        let mut bytes = file(&BLOCK_LIST[..10], &DAY);
        bytes[..8].copy_from_slice(&(high + 10u64).to_be_bytes());
        assert_eq!(print(&bytes), "bad blocks\n");
    }
}

#[test]
fn numbers_from_1_without_gap() {
    for number in [0, 2, 1 << 31 | 1, 4_294_967_295] {
        let entry = words(number, [1, 0, 0, 0, 0, 0, 0]);
        assert_eq!(print(&file(&[], &[entry])), "bad entry at 1\n");
    }
    let with = |changed: [[u64; 2]; 7]| print(&file(&BLOCK_LIST[..10], &changed));
    let mut changed = DAY;
    changed.swap(4, 5);
    assert_eq!(with(changed), "bad entry at 5\n");
    let mut changed = DAY;
    changed[6] = DAY[5];
    assert_eq!(with(changed), "bad entry at 7\n");
    let left_out = [&DAY[..3], &DAY[4..]].concat();
    assert_eq!(print(&file(&BLOCK_LIST, &left_out)), "bad entry at 4\n");
}

const READY: Entry = [1, 2, 0, 0, 0, 0, 0];
const CLOSED: Entry = [2, 2, 0, 0, 0, 0, 0];
const OFFER: Entry = [4, 2, 0, 0, 0, 0, 0];
const REGISTER: Entry = [5, 2, 0, 0, 0, 0, 2];
const BEGIN: Entry = [12, 2, 0, 0, 0, 2, 9];
/// `dr-vio`, offered as entry 4 and registered.
const OFFER_1: Entry = [4, 2, 1, 0, 0, 0, 0];
const REGISTER_1: Entry = [5, 2, 1, 0, 0, 0, 4];

const MEMORY: [Entry; 3] = [READY, OFFER, REGISTER];
const VIO: [Entry; 5] = [READY, OFFER, REGISTER, OFFER_1, REGISTER_1];
const REMOVAL: [Entry; 4] = [READY, OFFER, REGISTER, BEGIN];

/// What stands before a good entry of a kind, the entry, and the fields that
/// its kind names: c channel, s service, r record, o code, n count, w.
#[rustfmt::skip]
const KINDS: [(&[Entry], Entry, &str); 24] = [
    (&[], READY, "c"),
    (&MEMORY, [2, 2, 0, 0, 0, 0, 1], "cw"),
    (&[], [3, 2, 0, 0, 0, 3, 0], "cn"),
    (&MEMORY, OFFER_1, "cs"),
    (&[READY, OFFER], REGISTER, "csnw"),
    (&[READY, OFFER], [6, 2, 0, 0, 0, 0, 0], "cs"),
    (&MEMORY, [7, 2, 0, 0, 0, 0, 0], "cs"),
    (&VIO, [8, 2, 1, 0, 0, 0, 0], "cs"),
    (&MEMORY, [9, 2, 0, 0, 0, 0, 1], "cw"),
    (&MEMORY, [10, 2, 0, 0, 1, 0, 9], "csow"),
    (&MEMORY, [11, 2, 0, 0, 0, 0, 0b1101], "cw"),
    (&MEMORY, BEGIN, "cnw"),
    (&REMOVAL, [13, 2, 0, 0, 0, 0, 10], "cw"),
    (&REMOVAL, [14, 2, 0, 0, 0, 3, 0], "cn"),
    (&REMOVAL, [15, 2, 0, 0, 4, 0, 2], "cronw"),
    (&REMOVAL, [16, 2, 0, 0, 1, 1, 9], "conw"),
    (&MEMORY, [17, 2, 0, 0, 0, 0, 7], "cw"),
    (&[], [18, 2, 0, 0, 2, 31, 1], "conw"),
    (&[], [19, 0, 3, 0, 1, 0, 0], "so"),
    (&[], [20, 0, 0, 0, 0, 0, 0], ""),
    (&[], [21, 2, 3, 0, 1, 0, 1_000], "csow"),
    (&[], [22, 2, 0, 15, 0, 1, 77], "crnw"),
    (&[], [23, 2, 0, 0, 0, 0, 77], "cw"),
    (&[], [24, 2, 0, 0, 0, 0, 0], "c"),
];

#[test]
fn unnamed_fields_of_each_kind() {
    for (before, entry, named) in KINDS {
        assert!(is_good(before, entry), "{entry:?}");
        for (field, name) in (1..).zip("csronw".chars()) {
            let greatest = [3, 3, 15, 7, 0xffff, u64::MAX][field - 1];
            for value in [1, greatest, greatest - greatest / 2] {
                let mut changed = entry;
                changed[field] = value;
                if !named.contains(name) {
                    assert!(!is_good(before, changed), "{changed:?}");
                }
            }
        }
    }
}

#[test]
fn unknown_kinds() {
    for kind in [0, 25, 26, 27, 28, 29, 30] {
        assert!(!is_good(&MEMORY, [kind, 0, 0, 0, 0, 0, 0]));
        assert!(!is_good(&[], [kind, 0, 0, 0, 0, 0, 0]));
    }
    // After entry 1 the mark is unknown, in both editions.
    for before in [&[READY][..], &MEMORY, &REMOVAL] {
        assert!(!is_good(before, MARK));
    }
    assert!(!last_is_good(&[MARK, MARK]));
}

#[test]
fn kinds_that_show_nothing() {
    let before = print_entries(&REMOVAL);
    for (_, entry, _) in &KINDS[16..] {
        let after = print_entries(&[&REMOVAL[..], &[*entry]].concat());
        assert_eq!(after, before.replace("entries 4", "entries 5"));
    }
    // Those of other tickets need nothing, also on a closed channel.
    for (_, entry, _) in &KINDS[17..] {
        assert!(is_good(&[READY, CLOSED], *entry));
    }
}

#[test]
fn the_peers_handles() {
    // Neither a registration nor its end is shown or needed: w is no handle of
    // ours, whatever it is.
    let peer = [22, 2, 0, 3, 0, 1, 77];
    for w in [77, 2, OURS | 2, u64::MAX] {
        assert!(is_good(&MEMORY, [22, 2, 0, 3, 0, 1, w]));
        assert!(is_good(&MEMORY, [23, 2, 0, 0, 0, 0, w]));
    }
    let registered = [&MEMORY[..], &[peer]].concat();
    assert!(is_good(&registered, peer));
    assert!(is_good(&registered, [9, 2, 0, 0, 0, 0, 77]));
    assert!(!is_good(&registered, [9, 2, 0, 0, 0, 0, 2]));
    assert!(is_good(&registered, [9, 2, 0, 0, 0, 0, OURS | 2]));
    assert!(!is_good(&[READY, OFFER, peer], [5, 2, 0, 0, 0, 0, 77]));
    assert!(is_good(&[READY, OFFER, peer], REGISTER));
}

#[test]
fn a_ready_channel() {
    for (before, entry, _) in &KINDS {
        let needs = matches!(entry[0], 4..=13 | 17);
        // Closed, also if it was ready before; and never ready.
        assert_eq!(is_good(&[before, &[CLOSED][..]].concat(), *entry), !needs);
        let mut elsewhere = *entry;
        elsewhere[1] = (entry[0] < 18).into();
        assert_eq!(is_good(before, elsewhere), !needs, "{entry:?}");
        // Ready again, with its services idle.
        let again = [before, &[CLOSED, READY][..]].concat();
        let service = matches!(entry[0], 5..=8 | 10..=13);
        assert_eq!(is_good(&again, *entry), !service, "{entry:?}");
    }
}

#[test]
fn kind_10_names_its_service() {
    // Registered, offered or idle there.
    let answered = |service| [10, 2, service, 0, 3, 0, u64::MAX];
    assert!(is_good(&VIO, answered(0)) && is_good(&VIO, answered(1)));
    assert!(!is_good(&VIO, answered(2)) && !is_good(&VIO, answered(3)));
    assert!(!is_good(&VIO[..4], answered(1)) && !is_good(&MEMORY, answered(1)));
    let shutdown = [READY, [4, 2, 2, 0, 0, 0, 0], [5, 2, 2, 0, 0, 0, 2]];
    assert!(is_good(&shutdown, answered(2)) && !is_good(&shutdown, answered(0)));
}

#[test]
fn services() {
    let offered = [READY, OFFER];
    // 4: idle.
    assert!(!is_good(&offered, OFFER));
    assert!(!is_good(&MEMORY, OFFER));
    assert!(is_good(&[READY, OFFER, [7, 2, 0, 0, 0, 0, 0]], OFFER));
    // 5: offered, under that handle.
    for number in [1, 3, 0, 2 | 1 << 32, 2 << 32] {
        assert!(!is_good(&offered, [5, 2, 0, 0, 0, 0, OURS | number]));
        assert!(!is_good(&offered, [5, 2, 0, 0, 0, 0, number]));
    }
    assert!(!is_good(&offered, [5, 2, 0, 0, 0, 0, OURS | 2]));
    assert!(!is_good(&MEMORY, REGISTER));
    assert!(!is_good(&offered, [5, 2, 1, 0, 0, 0, 2]));
    assert!(!is_good(&[READY], [5, 2, 0, 0, 0, 0, 0]));
    // 6: offered; 7: live; 8: registered.
    let ends = |kind| [kind, 2, 0, 0, 0, 0, 0];
    assert!(is_good(&offered, ends(6)) && !is_good(&MEMORY, ends(6)));
    assert!(!is_good(&[READY], ends(6)));
    assert!(is_good(&offered, ends(7)) && is_good(&MEMORY, ends(7)));
    assert!(!is_good(&[READY], ends(7)));
    assert!(!is_good(&offered, ends(8)) && is_good(&MEMORY, ends(8)));
    assert!(!is_good(&[READY], ends(8)));
    // 10 to 13: service 0 registered.
    for kind in 10..=13 {
        let entry = [kind, 2, 0, 0, 0, 0, 0];
        let kept = [&REMOVAL[..], &[[7, 2, 0, 0, 0, 0, 0]]].concat();
        assert!(is_good(&REMOVAL, entry));
        assert!(!is_good(&kept, entry));
        assert!(!is_good(&[&kept[..], &[OFFER]].concat(), entry));
        assert!(!is_good(&[READY, OFFER_1, [5, 2, 1, 0, 0, 0, 2]], entry));
    }
    // 9: w not registered there.
    for (handle, good) in [
        (2, false),
        (4, false),
        (3, true),
        (2 | 1 << 32, true),
        (OURS, true),
        (OURS | 2, true),
        (0, true),
        (u64::MAX, true),
    ] {
        assert_eq!(is_good(&VIO, [9, 2, 0, 0, 0, 0, handle]), good);
    }
    assert!(is_good(&offered, [9, 2, 0, 0, 0, 0, 2]));
    let other = [READY, OFFER, REGISTER, [1, 3, 0, 0, 0, 0, 0]];
    assert!(is_good(&other, [9, 3, 0, 0, 0, 0, 2]));
}

#[test]
fn a_removal_is_shown() {
    for (_, entry, _) in &KINDS[12..16] {
        assert!(!is_good(&MEMORY, *entry));
        let ended = [&REMOVAL[..], &[[16, 0, 0, 0, 0, 0, 0]]].concat();
        assert!(!is_good(&ended, *entry));
    }
    // It goes on without its channel, except for requests.
    let closed = [&REMOVAL[..], &[CLOSED]].concat();
    for (_, entry, _) in &KINDS[13..16] {
        assert!(is_good(&closed, *entry));
    }
}

/// Record, code, count and block of a settled record.
fn settled(record: u64, code: u64, count: u64, block: u64) -> Entry {
    [15, 2, 0, record, code, count, block]
}

#[test]
fn settled_records() {
    // The record at the position.
    assert!(!is_good(&REMOVAL, settled(1, 0, 0, 0)));
    let one = [&REMOVAL[..], &[settled(0, 0, 4, 0)]].concat();
    assert!(is_good(&one, settled(1, 4, 0, 0)));
    assert!(!is_good(&one, settled(0, 4, 0, 0)));
    assert!(!is_good(&one, settled(2, 4, 0, 0)));
    let all: Vec<Entry> = (0..16).map(|record| settled(record, 4, 0, 0)).collect();
    let all = [&REMOVAL[..], &all].concat();
    assert!((0..16).all(|record| !is_good(&all, settled(record, 4, 0, 0))));
    // A block that is listed.
    assert!(is_good(&REMOVAL, settled(0, 4, 0, 3)));
    for block in [4, 15, 16, 64, 1 << 32, u64::MAX] {
        assert!(!is_good(&REMOVAL, settled(0, 4, 0, block)));
    }
    // No more pages than it has; fewer are good, whatever the code.
    for code in [0, 4, 7] {
        assert!(is_good(&REMOVAL, settled(0, code, 4, 0)));
        assert!(is_good(&REMOVAL, settled(0, code, 3, 0)));
        assert!(!is_good(&REMOVAL, settled(0, code, 5, 0)));
        assert!(!is_good(&REMOVAL, settled(0, code, 4, 2)));
    }
    let collected = [
        &REMOVAL[..],
        &[[14, 2, 0, 0, 0, 2, 0], [14, 2, 0, 0, 0, 1, 0]],
    ]
    .concat();
    assert!(is_good(&collected, settled(0, 0, 1, 0)));
    assert!(!is_good(&collected, settled(0, 0, 2, 0)));
    // CANCEL puts them back; a settled record and a new removal begin at 0.
    let cancelled = [&collected[..], &[[13, 2, 0, 0, 0, 0, 0]]].concat();
    assert!(is_good(&cancelled, settled(0, 0, 4, 0)));
    let settled_one = [&collected[..], &[settled(0, 0, 1, 0)]].concat();
    assert!(is_good(&settled_one, settled(1, 0, 3, 2)));
    let anew = [&collected[..], &[BEGIN]].concat();
    assert!(is_good(&anew, settled(0, 0, 4, 0)));
    // Collecting alone has no limit.
    let many = [[14, 2, 0, 0, 0, 0xffff, 0]; 40];
    assert!(is_good(
        &[&REMOVAL[..], &many].concat(),
        [16, 2, 0, 0, 0, 0, 0]
    ));
}

#[test]
fn what_is_shown_of_blocks() {
    let blocks = |entries: &[Entry]| {
        let printed = print_entries(&[&REMOVAL[..], entries].concat());
        let lines = printed.lines().filter(|line| line.starts_with("block"));
        let shown: String = lines
            .map(|line| if line.contains("un") { '0' } else { '1' })
            .collect();
        shown
    };
    assert_eq!(blocks(&[]), "1101");
    assert_eq!(blocks(&[settled(0, 0, 4, 0)]), "0101");
    assert_eq!(blocks(&[settled(0, 4, 0, 0)]), "1101");
    assert_eq!(blocks(&[[11, 2, 0, 0, 0, 0, 0b0100]]), "1111");
    let both = [settled(0, 0, 2, 3), [11, 2, 0, 0, 0, 0, 0b1100]];
    assert_eq!(blocks(&both[..1]), "1100");
    assert_eq!(blocks(&both), "1111");
    for bit in [4, 5, 15, 16, 63] {
        assert!(!is_good(&MEMORY, [11, 2, 0, 0, 0, 0, 1 << bit | 1]));
    }
}

#[test]
fn named_fields_that_are_not_judged() {
    assert!(is_good(&[], [2, 2, 0, 0, 0, 0, u64::MAX]));
    for code in 0..8 {
        assert!(is_good(&MEMORY, [10, 2, 0, 0, code, 0, 0]));
        assert!(is_good(&REMOVAL, [16, 1, 0, 0, code, 9, 5]));
    }
    // Kind 12 while a removal is shown, and with any count.
    for count in [0, 17, 0xffff] {
        assert!(is_good(&REMOVAL, [12, 2, 0, 0, 0, count, 0]));
    }
    // The channel of a removal's steps.
    for kind in [14, 16] {
        assert!(is_good(&REMOVAL, [kind, 0, 0, 0, 0, 0, 0]));
    }
    assert!(is_good(&REMOVAL, [15, 3, 0, 0, 0, 0, 0]));
}

#[test]
fn registered_and_offered_lines() {
    let entries = [
        READY,
        [4, 2, 3, 0, 0, 0, 0],
        [4, 2, 0, 0, 0, 0, 0],
        [5, 2, 3, 0, 0, 0xffff, 2],
        [1, 0, 0, 0, 0, 0, 0],
        [4, 0, 1, 0, 0, 0, 0],
        [2, 3, 0, 0, 0, 0, 1],
    ];
    let expected = "channel 0 ready\nservice 1 offered 6\nchannel 1 closed\nchannel 2 ready\n\
                    service 0 offered 3\nservice 3 registered 2 65535\nchannel 3 closed\n";
    assert!(print_entries(&entries).starts_with(expected));
    let expected = "channel 0 ready\nservice 1 offered 9223372036854775815\nchannel 1 closed\nchannel 2 ready\n\
                    service 0 offered 9223372036854775812\n\
                    service 3 registered 9223372036854775811 65535\nchannel 3 closed\n";
    assert!(print_entries(&new_journal(&entries)).starts_with(expected));
    // INIT_REQ on a ready channel leaves its services idle.
    let again = [&entries[..], &[READY]].concat();
    assert!(print_entries(&again).contains("channel 2 ready\nchannel 3 closed\n"));
}

#[test]
fn the_mark() {
    // It is known by its kind alone, and then bad for any other reason.
    assert!(last_is_good(&[MARK]));
    for field in 1..7 {
        let greatest = [3, 3, 15, 7, 0xffff, u64::MAX][field - 1];
        for value in [1, greatest, greatest - greatest / 2] {
            let mut changed = MARK;
            changed[field] = value;
            assert!(!last_is_good(&[changed]));
            // So a list of 64 blocks is not what is bad.
            let journal = numbered(&[changed]);
            assert_eq!(print(&file(&many(64), &journal)), "bad entry at 1\n");
        }
    }
    for number in [0, 2, 1 << 31 | 1, 4_294_967_295] {
        let journal = [words(number, MARK)];
        assert_eq!(print(&file(&many(64), &journal)), "bad entry at 1\n");
        assert_eq!(print(&file(&[], &journal)), "bad entry at 1\n");
    }
    // A journal of the mark alone shows what setup leaves.
    let closed = "channel 0 closed\nchannel 1 closed\nchannel 2 closed\nchannel 3 closed\n";
    let marked = print(&file(&[], &numbered(&[MARK])));
    assert_eq!(marked, format!("{closed}entries 1\n"));
    // An old journal that would be good after its mark is not.
    assert!(!last_is_good(&[MARK, READY, OFFER, [5, 2, 0, 0, 0, 0, 3]]));
    assert!(last_is_good(&[
        MARK,
        READY,
        OFFER,
        [5, 2, 0, 0, 0, 0, OURS | 3]
    ]));
    assert!(!last_is_good(&[READY, OFFER, [5, 2, 0, 0, 0, 0, OURS | 2]]));
}

/// Entries after a list of this many blocks, of five pages each.
fn after_blocks(blocks: u64, entries: &[[u64; 2]]) -> Vec<u8> {
    let list = (0..blocks).flat_map(|at| [at * 5 * 8192, 5, 0, 0, 1]);
    file(&list.collect::<Vec<u64>>(), entries)
}

#[test]
fn without_a_whole_entry_nothing_may_be_left_over() {
    let closed = "channel 0 closed\nchannel 1 closed\nchannel 2 closed\nchannel 3 closed\n";
    for blocks in [0, 1, 16, 17, 20, 64] {
        let lines = (0..blocks).map(|block| format!("block {block} configured\n"));
        let listed: String = lines.collect();
        let whole = format!("{closed}{listed}entries 0\n");
        // Of a mark, of another entry, of any bytes.
        for entry in [NEW_DAY[0], DAY[0], [u64::MAX; 2]] {
            let bytes = after_blocks(blocks, &[entry]);
            let start = bytes.len() - 16;
            assert_eq!(print(&bytes[..start]), whole);
            for length in 1..16 {
                assert_eq!(print(&bytes[..start + length]), "bad entry at 1\n");
            }
        }
    }
}

#[test]
fn a_journal_of_many_blocks_without_its_mark() {
    for blocks in [16, 17, 20, 64] {
        // New, and good: it shows its blocks.
        let whole = print(&after_blocks(blocks, &NEW_DAY));
        assert!(whole.ends_with(&format!("block {} configured\nentries 8\n", blocks - 1)));
        // The mark lost, and more entries with it: the first number is not 1.
        for lost in 1..NEW_DAY.len() {
            let printed = print(&after_blocks(blocks, &NEW_DAY[lost..]));
            assert_eq!(printed, "bad entry at 1\n");
        }
        // The first entry of another kind than 31: an unknown one, one that
        // needs what is not there, one with an unnamed field.
        for kind in [0, 25, 30, 4, 15] {
            let mut entries = NEW_DAY;
            entries[0][0] = 1 << 32 | kind << 27;
            assert_eq!(print(&after_blocks(blocks, &entries)), "bad entry at 1\n");
        }
        let mut entries = NEW_DAY;
        entries[0] = words(1, [20, 1, 0, 0, 0, 0, 0]);
        assert_eq!(print(&after_blocks(blocks, &entries)), "bad entry at 1\n");
        // One that is good in the old edition: its handles are bare numbers.
        entries[0] = words(1, [20, 0, 0, 0, 0, 0, 0]);
        assert_eq!(print(&after_blocks(blocks, &entries)), "bad entry at 4\n");
        entries[3][1] = 3;
        let printed = print(&after_blocks(blocks, &entries));
        assert!(printed.contains("\nservice 0 registered 3 0\n"));
        assert!(printed.ends_with("\nentries 8\n"));
        // The mark at any other place is unknown.
        let later = numbered(&[READY, MARK]);
        assert_eq!(print(&after_blocks(blocks, &later)), "bad entry at 2\n");
    }
}

#[test]
fn an_old_journal_of_many_blocks() {
    for blocks in [17, 20, 64] {
        let printed = print(&after_blocks(blocks, &DAY));
        let lines = (1..blocks).map(|block| format!("block {block} configured\n"));
        let listed: String = lines.collect();
        let expected = format!(
            "channel 0 closed\nchannel 1 closed\nchannel 2 ready\n\
             service 0 registered 2 0\nchannel 3 closed\nblock 0 unconfigured\n\
             {listed}entries 7\n"
        );
        assert_eq!(printed, expected);
        let good = |before: &[Entry], last: Entry| {
            let entries = numbered(&[before, &[last]].concat());
            let printed = print(&after_blocks(blocks, &entries));
            let bad = printed == format!("bad entry at {}\n", entries.len());
            assert!(bad || printed.ends_with(&format!("\nentries {}\n", entries.len())));
            !bad
        };
        // Kind 11: bits of any listed block.
        for bit in 0..64 {
            let listed = bit < blocks;
            assert_eq!(good(&MEMORY, [11, 2, 0, 0, 0, 0, 1 << bit]), listed);
            assert_eq!(good(&MEMORY, [11, 2, 0, 0, 0, 0, 1 << bit | 1]), listed);
        }
        let all = u64::MAX >> (64 - blocks);
        assert!(good(&MEMORY, [11, 2, 0, 0, 0, 0, all]));
        assert_eq!(good(&MEMORY, [11, 2, 0, 0, 0, 0, u64::MAX]), blocks == 64);
        // Kind 15: all of w is the block, which must be listed.
        for block in 0..70 {
            let listed = block < blocks;
            assert_eq!(good(&REMOVAL, settled(0, 4, 0, block)), listed);
            assert!(!good(&REMOVAL, settled(0, 4, 0, block | 1 << 6)));
            assert!(!good(&REMOVAL, settled(0, 4, 0, block | 1 << 32)));
        }
        // The new edition's word, with the record from bit 6 on, is no block.
        let one = [&REMOVAL[..], &[settled(0, 4, 0, 16)]].concat();
        assert!(good(&one, settled(1, 4, 0, 16)));
        assert!(!good(&one, settled(0, 4, 0, 1 << 6 | 16)));
        assert!(!good(&one, settled(1, 4, 0, 1 << 6 | 16)));
        // Pages are judged by the block, and code 0 unconfigures it.
        assert!(good(&REMOVAL, settled(0, 0, 5, 16)));
        assert!(!good(&REMOVAL, settled(0, 0, 6, 16)));
        let taken = [&REMOVAL[..], &[settled(0, 0, 5, 16)]].concat();
        let printed = print(&after_blocks(blocks, &numbered(&taken)));
        assert_eq!(printed.matches("unconfigured").count(), 1);
        assert!(printed.contains("\nblock 16 unconfigured\n"));
        let back = [&taken[..], &[[11, 2, 0, 0, 0, 0, 1 << 16]]].concat();
        let printed = print(&after_blocks(blocks, &numbered(&back)));
        assert_eq!(printed.matches("unconfigured").count(), 0);
        // The record field has four bits: none after the sixteenth is good.
        let sixteen = (0..16).map(|record| settled(record, 4, 0, 16));
        let sixteen = [&REMOVAL[..], &sixteen.collect::<Vec<Entry>>()].concat();
        assert!(good(&sixteen[..19], sixteen[19]));
        for record in 0..16 {
            assert!(!good(&sixteen, settled(record, 4, 0, 16)));
            assert!(!good(&sixteen, settled(record, 4, 0, 16 << 6 | 16)));
        }
        assert!(good(&sixteen, [16, 2, 0, 0, 0, 1, 9]));
        // Kind 12 may have any count, as with fewer blocks.
        assert!(good(&MEMORY, [12, 2, 0, 0, 0, 64, 9]));
    }
}

/// Whether the last entry of a new journal over 64 blocks is good.
fn good_of_64(entries: &[Entry]) -> bool {
    let count = entries.len();
    let printed = print(&file(&many(64), &numbered(entries)));
    let bad = printed == format!("bad entry at {count}\n");
    assert!(bad || printed.ends_with(&format!("\nentries {count}\n")));
    !bad
}

#[test]
fn kind_15_of_the_new_edition() {
    let begun = new_journal(&REMOVAL);
    let with = |entry: Entry| [&begun[..], &[entry]].concat();
    let settled = |w: u64| [15, 2, 0, 0, 4, 0, w];
    // The record field is unnamed, and so are the bits from 4,096 on.
    assert!(last_is_good(&with(settled(3))));
    for record in 1..16 {
        assert!(!last_is_good(&with([15, 2, 0, record, 4, 0, 0])));
    }
    for bit in 12..64 {
        assert!(!good_of_64(&with(settled(1 << bit))));
    }
    // The block by the six bits: listed or not.
    for block in 0..64 {
        assert_eq!(last_is_good(&with(settled(block))), block < 4);
        assert!(good_of_64(&with(settled(block))));
        assert!(!good_of_64(&with(settled(block | 64))));
    }
    // The record by the next six: the one at the position, up to 63.
    let mut entries = begun.clone();
    for record in 0..64 {
        for other in (0..64).filter(|other| *other != record) {
            let wrong = settled(other << 6 | 5);
            assert!(!good_of_64(&[&entries[..], &[wrong]].concat()));
        }
        entries.push(settled(record << 6 | (63 - record)));
        assert!(good_of_64(&entries));
    }
    for record in 0..64 {
        let past = settled(record << 6);
        assert!(!good_of_64(&[&entries[..], &[past]].concat()));
    }
    // Code 0 makes its block unconfigured; more pages than it has are bad.
    let taken = with([15, 2, 0, 0, 0, 1, 40]);
    let printed = print(&file(&many(64), &numbered(&taken)));
    assert_eq!(printed.matches("unconfigured").count(), 1);
    assert!(printed.contains("\nblock 40 unconfigured\n"));
    assert!(!good_of_64(&with([15, 2, 0, 0, 0, 2, 40])));
}

#[test]
fn kind_11_of_64_blocks() {
    let memory = new_journal(&MEMORY);
    let with = |w: u64| [&memory[..], &[[11, 2, 0, 0, 0, 0, w]]].concat();
    assert!(good_of_64(&with(u64::MAX)));
    for bit in 0..64 {
        assert!(good_of_64(&with(1 << bit)));
        assert_eq!(last_is_good(&with(1 << bit)), bit < 4);
    }
    let list: Vec<u64> = (0..64).flat_map(|at| [at * 8192, 1, 0, 0, 0]).collect();
    let printed = print(&file(&list, &numbered(&with(1 << 63 | 1 << 16))));
    assert_eq!(printed.matches("unconfigured").count(), 62);
    assert!(printed.contains("\nblock 16 configured\n"));
    assert!(printed.contains("\nblock 63 configured\n"));
}

/// A host, and the file of what it wrote since its setup.
#[derive(Default)]
struct Follower {
    host: Host,
    words: Vec<u64>,
    entries: Vec<[u64; 2]>,
}

impl Follower {
    fn call(&mut self, call: &Call) -> String {
        let mut answer = Vec::new();
        self.host.perform(call, &mut answer);
        if let Call::Setup(words) = call {
            self.words.clear();
            if answer.starts_with(b"setup accepted") {
                self.words.extend(words);
            }
            self.entries.clear();
        }
        while (self.entries.len() as u64) < self.host.state.last {
            let number = self.entries.len() as u64 + 1;
            self.entries.push(self.host.entry(number));
        }
        String::from_utf8(answer).unwrap()
    }

    /// The file is good and shows the state, except for its peers, devices,
    /// orders, removal and front.
    fn check(&mut self) {
        let state = self.call(&Call::State);
        let lines = state.split_inclusive('\n');
        let hidden = ["peer", "device", "permission", "order", "removal", "front"];
        let shown = |line: &&str| !hidden.iter().any(|name| line.starts_with(name));
        let expected: String = lines.filter(shown).collect();
        assert_eq!(print(&file(&self.words, &self.entries)), expected);
    }
}

#[test]
fn a_random_list_is_shown_as_its_state() {
    for seed in 1..=8 {
        let mut follower = Follower::default();
        for (place, line) in generate(seed, 4_000)
            .split(|byte| *byte == b'\n')
            .enumerate()
        {
            if let Line::Call(call) = Line::read(line) {
                if place % 23 == 0 || matches!(call, Call::Setup(_)) {
                    follower.check();
                }
                follower.call(&call);
            }
        }
        follower.check();
    }
}
