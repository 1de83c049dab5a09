//! Ticket 8: 64 blocks and 64 records, kind 15's word, and setup's mark.

mod common;
use common::*;
use independent::block::PAGE;
use independent::lines::answer;
use independent::*;

/// The mark: entry number 1 of kind 31, and else 0.
const MARK: [u64; 2] = [0x0000_0001_F800_0000, 0];

/// So many blocks of 1, 2, 3, 1, 2, 3, .. pages with a gap between them; every
/// fourth is unconfigured.
fn many(count: u64) -> Vec<u64> {
    let block = |at: u64| {
        [
            0x1000_0000 + at * 0x10_0000,
            at % 3 + 1,
            0,
            0,
            (at % 4 != 3).into(),
        ]
    };
    (0..count).flat_map(block).collect()
}

/// The pair of a block of `many`.
fn pair(at: u64) -> Pair {
    Pair {
        addr: 0x1000_0000 + at * 0x10_0000,
        size: (at % 3 + 1) * PAGE,
    }
}

/// `dr-mem` registered on channel 2, over 64 blocks.
fn with_64() -> Bench {
    let mut bench = Bench::new(&many(64));
    bench.receive(2, &build::init_req(1, 0)).unwrap();
    bench.offer(2, 0).unwrap();
    bench
        .receive(2, &build::reg_ack(build::ours(3), 0))
        .unwrap();
    bench
}

#[test]
fn setup_writes_the_mark() {
    let mut journal = vec![0xdead; 128];
    let state = setup(&BLOCK_LIST, &[], &[], &mut journal).unwrap();
    assert_eq!((state.last, state.held), (1, 1));
    assert!(state.is_sound());
    // Into its slot, and no other word.
    assert_eq!(journal[..2], MARK);
    assert!(journal[2..].iter().all(|word| *word == 0xdead));
    // A second setup begins anew, whatever the journal holds.
    let mut bench = Bench::with_memory();
    let again = setup(&[], &[], &[], &mut bench.journal).unwrap();
    assert_eq!((again.last, again.held), (1, 1));
    assert_eq!(bench.journal[..2], MARK);
    assert_eq!(bench.journal[2..4], [0x0000_0002_0C00_0000, 0]);
    // The mark is drained as any entry, and the next has number 2.
    let mut bench = Bench::new(&[]);
    assert_eq!(bench.drain(), [(MARK[0], MARK[1])]);
    assert_eq!(bench.drain(), []);
    bench.close(3).unwrap();
    assert_eq!(bench.drain(), [(0x0000_0002_1600_0000, 0)]);
}

#[test]
fn setups_that_are_refused() {
    let bad_devices = [1, 9, 0, 1];
    for words in [0, 1, 127, 129, 256] {
        // 1 is tested before 7.
        for (blocks, devices, ids) in [
            (&BLOCK_LIST[..], &[][..], &[][..]),
            (&[1], &[], &[]),
            (&[], &bad_devices, &[]),
            (&[], &[], &[1]),
            (&many(65), &[], &[]),
        ] {
            let mut journal = vec![0xdead; words];
            assert_eq!(setup(blocks, devices, ids, &mut journal), Err(1));
            assert_eq!(journal, vec![0xdead; words]);
        }
    }
    for (blocks, devices, ids) in [
        (&[1][..], &[][..], &[][..]),
        (&[], &bad_devices, &[]),
        (&[], &[], &[1]),
        (&many(65), &[], &[]),
    ] {
        let mut journal = [0xdead; 128];
        assert_eq!(setup(blocks, devices, ids, &mut journal), Err(7));
        assert_eq!(journal, [0xdead; 128]);
    }
}

#[test]
fn the_empty_state_is_refused_by_8() {
    let empty = State::default();
    assert!(!empty.is_sound());
    for words in [128, 127] {
        let mut bench = Bench::new(&[]);
        bench.state = empty;
        bench.journal.resize(words, 0xdead);
        bench.out.truncate(2_000);
        let before = bench.clone();
        assert_eq!(bench.receive(9, &build::init_req(1, 0)), Err(8));
        assert_eq!(bench.offer(0, 0), Err(8));
        assert_eq!(bench.withdraw(0, 9), Err(8));
        assert_eq!(bench.close(0), Err(8));
        assert_eq!(bench.work(0), Err(8));
        assert_eq!(bench.permit(2, true), Err(8));
        assert_eq!(bench.take(), Err(8));
        let mut run = [7; 4];
        let drained = drain(&mut bench.state, &bench.journal, &mut run);
        assert_eq!((drained, run), (Err(8), [7; 4]));
        assert_eq!(bench, before);
    }
}

#[test]
fn show_on_a_state_without_an_entry() {
    // A registration of the peer that a sound state would show.
    let ids = [1, 0, 3, 0x7370 << 48, 0, 0, 0];
    let mut bench = Bench::new(&[]);
    bench.state = setup(&[], &[], &ids, &mut bench.journal).unwrap();
    bench.receive(2, &build::init_req(1, 0)).unwrap();
    bench.receive(2, &build::reg_req(7, 1, 0, b"sp\0")).unwrap();
    let message = build::data(7, b"abc");
    assert_eq!(show(&bench.state, 2, &message), b"abc");
    (bench.state.last, bench.state.held) = (0, 0);
    assert_eq!(show(&bench.state, 2, &message), b"");
    bench.state.last = 1;
    assert_eq!(show(&bench.state, 2, &message), b"abc");
}

#[test]
fn block_counts() {
    for count in 0..=66 {
        let mut journal = [0; 128];
        let made = setup(&many(count), &[], &[], &mut journal);
        assert_eq!(made.is_ok(), count <= 64, "{count}");
        if let Ok(state) = made {
            assert_eq!(state.blocks.listed().len() as u64, count);
        }
    }
    // A rule broken at each of the 64 blocks, and 63 words of the last.
    for at in 0..64 {
        for (word, value) in [(0, 1), (1, 0), (2, 1), (3, 9), (4, 2)] {
            let mut list = many(64);
            list[at * 5 + word] = value;
            assert_eq!(setup(&list, &[], &[], &mut [0; 128]), Err(7), "{at}");
        }
        let mut spoilt = with_64();
        spoilt.state.blocks.list[at].base += 1;
        assert_eq!(spoilt.close(1), Err(8), "{at}");
    }
    assert_eq!(setup(&many(64)[..319], &[], &[], &mut [0; 128]), Err(7));
}

/// Every block is found under its pair, and nothing near it.
#[test]
fn search() {
    for count in 0..=64 {
        let words = many(count);
        let blocks = Blocks::from_words(&words).unwrap();
        for at in 0..66 {
            let exact = pair(at);
            let found = (at < count).then_some(at as usize);
            assert_eq!(blocks.find(exact), found, "{at} of {count}");
            for (addr, size) in [
                (exact.addr, exact.size + PAGE),
                (exact.addr, 0),
                (exact.addr + PAGE, exact.size),
                (exact.addr - 1, exact.size),
                (exact.addr | 1 << 63, exact.size),
            ] {
                assert_eq!(blocks.find(Pair { addr, size }), None);
            }
        }
    }
}

#[test]
fn configure_of_64_records() {
    let mut bench = with_64();
    let all: Vec<Pair> = (0..64).rev().map(pair).collect();
    let reply = bench.request(memory::CONFIGURE, &all);
    let expected: Vec<(u8, u8)> = (0..64)
        .rev()
        .map(|at| if at % 4 == 3 { (0, 2) } else { (4, 2) })
        .collect();
    assert_eq!(results(&reply), expected);
    // Bit i for block i, the last too.
    assert_eq!(bench.last_entry(), (11, 0, 0, 0, 0x8888_8888_8888_8888));
    assert_eq!(bench.request(memory::CONFIGURE, &all[..1]).len(), 16 + 28);
    assert_eq!(bench.last_entry(), (10, 0, 0, 0, 10));
    // An unknown record among them: FAILURE from there on.
    let mut bench = with_64();
    let mut list = all.clone();
    list[40] = Pair { addr: 1, size: 1 };
    let results = results(&bench.request(memory::CONFIGURE, &list));
    assert_eq!(results[39].0, 4);
    assert_eq!(results[40], (1, 0));
    assert!(results[41..].iter().all(|(result, _)| *result == 1));
    // Blocks 63 down to 24 were come to: of these every fourth.
    let bits = 0x8888_8888_8888_8888 & !0u64 << 24;
    assert_eq!(bench.last_entry(), (11, 0, 0, 0, bits));
}

/// A removal of all 64 blocks from the last to the first: record i is block
/// 63 - i.
#[test]
fn a_removal_of_64_records() {
    let mut bench = with_64();
    let all: Vec<Pair> = (0..64).rev().map(pair).collect();
    bench.unconfigure(&all);
    assert_eq!(bench.last_entry(), (12, 0, 0, 64, 9));
    for record in 0..64 {
        let block = 63 - record;
        bench.drain();
        let pages = if block % 4 == 3 { 0 } else { block % 3 + 1 };
        assert_eq!(bench.work(3), Ok((pages, vec![])));
        let code = if block % 4 == 3 { 4 } else { 0 };
        // The record field is 0: the record stands in w, above the block.
        assert_eq!(
            bench.last_entry(),
            (15, 0, code, pages, block + 64 * record)
        );
        assert!(bench.state.is_sound());
    }
    // All are settled: STATUS tells two zeros.
    let status = bench.request(memory::UNCONF_STATUS, &[]);
    assert_eq!((status[7], &status[16..]), (1, &[0; 16][..]));
    let (pages, reply) = bench.work(1).unwrap();
    assert_eq!((pages, reply.len()), (0, 32 + 64 * 28));
    let expected: Vec<(u8, u8)> = (0..64)
        .rev()
        .map(|at| if at % 4 == 3 { (4, 1) } else { (0, 1) })
        .collect();
    assert_eq!(results(&reply[16..]), expected);
    assert_eq!(bench.last_entry(), (16, 0, 0, 1, 9));
}

/// The word of kind 15 by hand: record 37 settles block 26 with its 3 pages.
#[test]
fn the_word_of_kind_15() {
    let mut bench = with_64();
    let all: Vec<Pair> = (0..64).rev().map(pair).collect();
    bench.unconfigure(&all[..38]);
    for _ in 0..37 {
        bench.drain();
        bench.work(65_535).unwrap();
    }
    bench.drain();
    bench.work(2).unwrap();
    bench.work(9).unwrap();
    // 3 entries of the registration, the mark, the beginning, 37 steps.
    let collected = (0x0000_002B_7400_0002, 0);
    let settled = (0x0000_002C_7C00_0001, 37 * 64 + 26);
    assert_eq!(bench.drain(), [collected, settled]);
    assert_eq!(37 * 64 + 26, 0x95a);
}

#[test]
fn ends_after_the_sixteenth_record() {
    let begin = |change: fn(&mut Vec<Pair>, &mut Bench)| {
        let mut bench = with_64();
        let mut list: Vec<Pair> = (0..64).map(pair).collect();
        change(&mut list, &mut bench);
        bench.unconfigure(&list);
        for _ in 0..50 {
            bench.drain();
            assert_eq!(bench.work(3).unwrap().1, []);
        }
        bench
    };
    let end = |bench: &mut Bench| {
        let (_, reply) = bench.work(3).unwrap();
        results(&reply[16..])
    };
    // Unknown at record 50.
    let mut bench = begin(|list, _| list[50].size += PAGE);
    let all = end(&mut bench);
    assert_eq!((all[49], all[50], all[51]), ((0, 1), (1, 0), (1, 1)));
    assert_eq!(bench.last_entry(), (16, 0, 1, 1, 9));
    // Permanent pages there.
    let mut bench = begin(|_, bench| bench.state.blocks.list[50].permanent = 1);
    let all = end(&mut bench);
    assert_eq!((all[49], all[50], all[52]), ((0, 1), (5, 2), (1, 2)));
    assert_eq!(bench.last_entry(), (16, 0, 5, 1, 9));
    // Cancelled there, with 2 of its 3 pages collected.
    let mut bench = begin(|_, _| ());
    bench.work(2).unwrap();
    assert_eq!(bench.last_entry(), (14, 0, 0, 2, 0));
    let status = bench.request(memory::UNCONF_STATUS, &[]);
    let total = [3 * PAGE, 2 * PAGE].map(u64::to_be_bytes).concat();
    assert_eq!(status[16..], total);
    bench.cancel();
    let all = end(&mut bench);
    assert_eq!((all[49], all[50], all[63]), ((0, 1), (3, 2), (3, 1)));
    assert_eq!(bench.last_entry(), (16, 0, 3, 1, 9));
}

#[test]
fn made_removals() {
    // Soundness of a removal of 64 records at each position.
    let mut bench = with_64();
    let all: Vec<Pair> = (0..64).map(pair).collect();
    bench.unconfigure(&all);
    for position in 0..=66 {
        let mut tried = bench.clone();
        let removal = tried.state.removal.as_mut().unwrap();
        removal.position = position;
        let good = position <= 64;
        assert_eq!(tried.state.is_sound(), good, "{position}");
        let configured = position < 64 && position % 4 != 3;
        let pages = position as u64 % 3 + 1;
        for collected in 1..4 {
            tried.state.removal.as_mut().unwrap().collected = collected;
            let sound = configured && collected < pages;
            assert_eq!(tried.state.is_sound(), sound, "{position}");
        }
    }
    for (count, good) in [
        (0, false),
        (1, true),
        (64, true),
        (65, false),
        (1 << 32, false),
    ] {
        let mut tried = bench.clone();
        tried.state.removal.as_mut().unwrap().count = count;
        assert_eq!(tried.close(1).is_ok(), good, "{count}");
    }
}

#[test]
fn the_longest_reply() {
    let mut bench = with_64();
    let all: Vec<Pair> = (0..64).map(pair).collect();
    let query = build::data(build::ours(3), &build::request(memory::QUERY, 1, &all));
    bench.out.truncate(2591);
    assert_eq!(bench.receive(2, &query), Err(2));
    bench.out.push(0xee);
    let reply = bench.receive(2, &query).unwrap();
    assert_eq!(reply.len(), 2_592);
    assert_eq!(reply[4..8], 2_584u32.to_be_bytes());
    assert_eq!(reply[16..24], [0, 0, 0, 0x6f, 0, 0, 0, 64]);
    for (record, pair) in reply[32..].chunks_exact(40).zip(all) {
        assert_eq!(record[..8], pair.addr.to_be_bytes());
        assert_eq!(record[8..16], pair.size.to_be_bytes());
        assert_eq!(record[16..], [0; 24]);
    }
}

/// The day as lines, C1 to C10 after the mark.
#[test]
fn the_day() {
    let list = "setup 0x10000000 4 0 0 1 0x20000000 2 1 1 1\n\
         receive 2 000000000000000400010000\noffer 2 0\n\
         receive 2 000000040000000a80000000000000030000\n\
         receive 2 00000009000000288000000000000003\
         00004d5500000001000000000000000900000000100000000000000000008000\n\
         work 3\nwork 3\nwork 1\ndrain 128\n\
         receive 2 00000009000000288000000000000003\
         00004d5100000001000000000000000a00000000200000000000000000004000\n\
         receive 2 000000000000000400030000\n";
    let expected = "setup accepted\nreceive accepted 00000001000000020000\n\
         offer accepted 000000030000001380000000000000030001000064722d6d656d00\n\
         receive accepted\nreceive accepted\nwork accepted 3\nwork accepted 1\n\
         work accepted 0 0000000900000034800000000000000300000\
         06f0000000100000000000000090000000010000000000000000000800000000000\
         0000000100000000\n\
         drain accepted 8\n\
         entry 00000001f8000000 0000000000000000\n\
         entry 000000020c000000 0000000000000000\n\
         entry 0000000324000000 0000000000000000\n\
         entry 000000042c000000 8000000000000003\n\
         entry 0000000564000001 0000000000000009\n\
         entry 0000000674000003 0000000000000000\n\
         entry 000000077c000001 0000000000000000\n\
         entry 0000000884000001 0000000000000009\n\
         receive accepted 0000000900000040800000000000000300000\
         06f00000001000000000000000a00000000200000000000000000004000\
         000000000000200000000000200020000000000020003fff\n\
         receive accepted 00000002000000020001\n";
    let answers = String::from_utf8(answer(list.as_bytes())).unwrap();
    assert_eq!(answers, expected);
}
