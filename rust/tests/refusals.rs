//! The refusals one by one, their order, and that a refusal changes nothing.

mod common;
use common::*;
use independent::*;

/// Every call that is lent an output, each of which a sound state accepts.
type Attempt = fn(&mut Bench) -> Option<u64>;
const ATTEMPTS: [Attempt; 7] = [
    |bench| bench.receive(2, &build::init_req(1, 0)).err(),
    |bench| bench.offer(2, 3).err(),
    |bench| bench.withdraw(2, 0).err(),
    |bench| bench.close(1).err(),
    |bench| bench.work(1).err(),
    |bench| bench.permit(2, true).err(),
    |bench| bench.take().err(),
];

/// `dr-mem` registered on channel 2, a removal of A with 3 pages collected, and
/// an order that waits.
fn with_removal() -> Bench {
    let mut bench = Bench::with_memory();
    bench.unconfigure(&[A, C]);
    bench.work(3).unwrap();
    bench.state.orders.waiting = Some(Order::Panic);
    bench
}

/// Whether each of the seven calls is refused by `number`, or accepted if 0,
/// and a refused one changes nothing.
fn each_gives(bench: &Bench, number: u64) {
    for attempt in ATTEMPTS {
        let mut tried = bench.clone();
        assert_eq!(attempt(&mut tried).unwrap_or(0), number);
        assert!(number == 0 || tried == *bench);
    }
}

fn drain_gives(bench: &Bench, expected: Result<usize, u64>) {
    let mut tried = bench.clone();
    let mut run = [3; 40];
    assert_eq!(drain(&mut tried.state, &tried.journal, &mut run), expected);
    if expected.is_err() {
        assert!(tried == *bench && run == [3; 40]);
    }
}

#[test]
fn accepted_when_nothing_is_wrong() {
    each_gives(&with_removal(), 0);
    drain_gives(&with_removal(), Ok(6));
}

#[test]
fn journals_that_are_not_128_words() {
    for words in [0, 127, 129, 200] {
        let mut bench = with_removal();
        bench.journal.resize(words, 0xdead);
        bench.out.truncate(2591);
        each_gives(&bench, 1);
        drain_gives(&bench, Err(1));
    }
}

#[test]
fn arguments_out_of_range() {
    let bench = with_removal();
    let attempts: [Attempt; 14] = [
        |bench| bench.receive(4, &[]).err(),
        |bench| bench.receive(1 << 32, &[]).err(),
        |bench| bench.offer(4, 0).err(),
        |bench| bench.offer(0, 4).err(),
        |bench| bench.withdraw(u64::MAX, 0).err(),
        |bench| bench.withdraw(2, u64::MAX).err(),
        |bench| bench.close(4).err(),
        |bench| bench.work(0).err(),
        |bench| bench.work(65_536).err(),
        |bench| bench.permit(0, true).err(),
        |bench| bench.permit(1, true).err(),
        |bench| bench.permit(4, false).err(),
        |bench| bench.permit(1 << 32 | 2, true).err(),
        |bench| bench.permit(u64::MAX, true).err(),
    ];
    for attempt in attempts {
        let mut tried = bench.clone();
        assert_eq!(attempt(&mut tried), Some(3));
        assert_eq!(tried, bench);
        // 3 is tested before 4.
        tried.state.last = 64;
        tried.state.held = 64;
        assert_eq!(attempt(&mut tried), Some(3));
        tried.out.truncate(2591);
        assert_eq!(attempt(&mut tried), Some(2));
    }
    assert!(bench.clone().work(65_535).is_ok());
}

#[test]
fn a_full_journal_is_tested_before_the_last_number() {
    let mut bench = with_removal();
    bench.state.last = 4_294_967_295;
    bench.state.held = 64;
    each_gives(&bench, 4);
    drain_gives(&bench, Ok(20));
    bench.state.held = 63;
    each_gives(&bench, 5);
    drain_gives(&bench, Ok(20));
    bench.state.last -= 1;
    each_gives(&bench, 0);
}

#[test]
fn the_last_number_is_used_once() {
    let mut bench = with_removal();
    bench.state.last = 4_294_967_294;
    let offered = bench.offer(2, 3).unwrap();
    assert_eq!(offered[8..16], build::ours(4_294_967_295).to_be_bytes());
    assert_eq!(
        bench.journal[124],
        4_294_967_295 << 32 | 4 << 27 | 2 << 25 | 3 << 23
    );
    each_gives(&bench, 5);
}

#[test]
fn calls_at_the_wrong_time() {
    let mut bench = Bench::with_memory();
    let before = bench.clone();
    assert_eq!(bench.offer(1, 0), Err(6)); // closed
    assert_eq!(bench.offer(2, 0), Err(6)); // registered
    assert_eq!(bench.withdraw(2, 1), Err(6)); // idle
    assert_eq!(bench.withdraw(0, 0), Err(6));
    assert_eq!(bench.work(1), Err(6)); // nothing outstanding
    assert_eq!(bench.take(), Err(6)); // no order
    assert_eq!(bench, before);
    // 5 is tested before 6.
    bench.state.last = 4_294_967_295;
    assert_eq!(bench.work(1), Err(5));
    assert_eq!(bench.take(), Err(5));
    assert_eq!(bench.offer(1, 0), Err(5));
    assert_eq!(bench.withdraw(2, 1), Err(5));
}

const END: u64 = 1 << 63;
const GOOD: [&[u64]; 8] = [
    &[],
    &[0, 1, 0, 0, 0],
    &[0, 1_048_576, 1, 1_048_575, 1],
    &[END - 8192, 1, 0, 1, 1],
    &[0, 1, 0, 0, 1, 8192, 1, 0, 0, 1],
    &[0, 2, 1, 1, 1],
    &[0; 0],
    &[8192, 1, 0, 0, 1],
];

const BAD: [&[u64]; 18] = [
    &[1],
    &[0, 1, 0, 0],
    &[0, 1, 0, 0, 0, 8192],
    &[4096, 1, 0, 0, 0],
    &[0, 0, 0, 0, 0],
    &[0, 1_048_577, 0, 0, 0],
    &[0, u64::MAX, 0, 0, 0],
    &[END - 8192, 2, 0, 0, 0],
    &[END, 1, 0, 0, 0],
    &[u64::MAX - 8191, 1, 0, 0, 0],
    &[0, 2, 0, 0, 1, 8192, 1, 0, 0, 1],
    &[8192, 1, 0, 0, 1, 0, 1, 0, 0, 1],
    &[0, 2, 1, 2, 1],
    &[0, 2, u64::MAX, 2, 1],
    &[0, 2, 2, u64::MAX, 1],
    &[0, 2, 1, 0, 1],
    &[0, 2, 0, 1, 0],
    &[0, 2, 0, 0, 2],
];

#[test]
fn block_lists() {
    for list in GOOD {
        assert!(setup(list, &[], &[], &mut [0; 128]).is_ok(), "{list:?}");
    }
    for list in BAD {
        assert_eq!(setup(list, &[], &[], &mut [0; 128]), Err(7), "{list:?}");
    }
    let many =
        |count: u64| -> Vec<u64> { (0..count).flat_map(|at| [at * 8192, 1, 0, 0, 1]).collect() };
    assert!(setup(&many(64), &[], &[], &mut [0; 128]).is_ok());
    assert_eq!(setup(&many(65), &[], &[], &mut [0; 128]), Err(7));
}

#[test]
fn setup_leaves_everything_idle() {
    let state = setup(&BLOCK_LIST, &[], &[], &mut [0; 128]).unwrap();
    assert_eq!(state.channels, [Channel::CLOSED; 4]);
    assert_eq!(
        (state.removal, state.last, state.held, state.blocks.count),
        (None, 1, 1, 4)
    );
    assert!(state.is_sound());
    // The empty state is that of no setup.
    assert!(!State::default().is_sound());
}

/// A change of a sound state that makes it unsound in one way.
type Spoil = fn(&mut State);

fn removal(state: &mut State) -> &mut Removal {
    state.removal.as_mut().unwrap()
}

/// A state without services, removal and entries held, after so many entries.
fn empty_but_numbers(state: &mut State, last: u64) {
    *state = State {
        blocks: state.blocks,
        last,
        ..State::default()
    };
}

const SPOILS: [Spoil; 39] = [
    |state| state.blocks.count = 65,
    |state| state.blocks.count = usize::MAX,
    |state| state.blocks.list[3].base += 1,
    |state| state.blocks.list[3].pages = 0,
    |state| state.blocks.list[3].pages = 1_048_577,
    |state| state.blocks.list[3].pages = u64::MAX,
    |state| state.blocks.list[3].base = 1 << 63,
    |state| state.blocks.list[3].base = u64::MAX - 8191,
    |state| state.blocks.list[3].base = state.blocks.list[2].base,
    |state| state.blocks.list[2].pages = 131_073,
    |state| state.blocks.list[3].permanent = 3,
    |state| (state.blocks.list[3].first, state.blocks.list[3].permanent) = (u64::MAX, u64::MAX),
    |state| state.blocks.list[3].first = 1,
    |state| state.blocks.list[2].permanent = 1,
    |state| state.channels[2].ready = false,
    |state| {
        state.channels[0].services[3] = Service::Offered {
            handle: build::ours(2),
        }
    },
    |state| {
        state.channels[2].services[3] = Service::Offered {
            handle: build::ours(3),
        }
    },
    |state| {
        state.channels[0] = Channel::READY;
        state.channels[0].services[1] = Service::Registered {
            handle: build::ours(3),
            minor: 0,
        };
    },
    |state| {
        state.channels[2].services[0] = Service::Offered {
            handle: build::ours(0),
        }
    },
    |state| {
        state.channels[2].services[0] = Service::Offered {
            handle: build::ours(7),
        }
    },
    |state| {
        state.channels[2].services[0] = Service::Offered {
            handle: build::ours(1 << 32 | 2),
        }
    },
    |state| state.channels[2].services[0] = Service::Offered { handle: 3 },
    |state| removal(state).handle = 3,
    |state| removal(state).handle = 0,
    |state| removal(state).handle = build::ours(1 << 32),
    |state| state.last = 4_294_967_296,
    |state| (state.last, state.held) = (0, 0),
    |state| empty_but_numbers(state, 0),
    |state| (state.last, state.held) = (1 << 40, 65),
    |state| state.held = 7,
    |state| removal(state).channel = 4,
    |state| removal(state).handle = build::ours(7),
    |state| removal(state).count = 0,
    |state| (removal(state).count, removal(state).collected) = (65, 0),
    |state| (removal(state).position, removal(state).collected) = (3, 0),
    |state| removal(state).collected = 4,
    |state| removal(state).position = 1, // C is not configured: 3 pages
    |state| state.orders.waiting = Some(Order::Shutdown { delay: 1 << 32 }),
    |state| state.orders.waiting = Some(Order::Shutdown { delay: u64::MAX }),
];

#[test]
fn unsound_states() {
    let message = build::data(build::ours(4), b"abc");
    for (number, spoil) in SPOILS.iter().enumerate() {
        let mut bench = with_removal();
        bench.state.channels[2].services[2] = Service::Registered {
            handle: build::ours(4),
            minor: 0,
        };
        spoil(&mut bench.state);
        assert!(!bench.state.is_sound(), "{number}");
        // 8 is tested before 1.
        for words in [128, 127] {
            bench.journal.truncate(words);
            each_gives(&bench, 8);
            drain_gives(&bench, Err(8));
        }
        assert_eq!(show(&bench.state, 2, &message), b"");
    }
}

#[test]
fn more_unsound_removals() {
    let spoils: [Spoil; 3] = [
        |state| (removal(state).position, removal(state).collected) = (2, 1),
        |state| removal(state).records[0] = UNKNOWN,
        |state| state.blocks.list[0].configured = false,
    ];
    for spoil in spoils {
        let mut bench = with_removal();
        spoil(&mut bench.state);
        each_gives(&bench, 8);
        removal(&mut bench.state).collected = 0;
        each_gives(&bench, 0);
    }
}

#[test]
fn made_states_that_are_sound() {
    let changes: [Spoil; 12] = [
        |state| removal(state).handle = build::ours(0),
        |state| removal(state).cancelled = true,
        |state| (removal(state).position, removal(state).collected) = (2, 0),
        |state| (removal(state).records[0], removal(state).collected) = (B, 1),
        |state| removal(state).records[1] = A,
        |state| state.held = 0,
        |state| state.orders.waiting = Some(Order::Shutdown { delay: 0 }),
        |state| {
            state.orders.waiting = Some(Order::Shutdown {
                delay: 4_294_967_295,
            })
        },
        |state| state.orders.permitted = [true; 2],
        |state| state.highest = [Some(u64::MAX); 4],
        |state| state.highest = [None; 4],
        |state| {
            state.channels[2].services[0] = Service::Registered {
                handle: build::ours(6),
                minor: 9,
            }
        },
    ];
    for change in changes {
        let mut bench = with_removal();
        change(&mut bench.state);
        each_gives(&bench, 0);
    }
}
