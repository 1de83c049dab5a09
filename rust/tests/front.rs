//! The front, ticket 9 of 02, sentence by sentence.

mod common;
use common::*;
use independent::front::{Stage, MAX_MESSAGE};
use independent::{build, drain, memory, piece, reopen, wire, Front, Service, State, Taken};

/// A bench with a front before it.
#[derive(Clone, Debug, PartialEq)]
struct Fronted {
    bench: Bench,
    front: Front,
}

/// How many bytes were taken, and the reply if a message was given.
type Given = Result<(usize, Option<Vec<u8>>), u64>;

impl Fronted {
    fn new(bench: Bench) -> Fronted {
        let front = Front::default();
        Fronted { bench, front }
    }

    /// Checks that no byte beyond a reply was touched, and that nothing was
    /// that the call has no business with.
    fn piece(&mut self, channel: u64, bytes: &[u8]) -> Given {
        let before = self.clone();
        let Bench {
            state,
            journal,
            out,
            ..
        } = &mut self.bench;
        let taken = piece(&mut self.front, state, channel, bytes, journal, out);
        match taken {
            Err(number) => {
                assert_eq!(*self, before);
                for (now, then) in self.front.streams.iter().zip(&before.front.streams) {
                    assert_eq!(now.bytes, then.bytes);
                }
                Err(number)
            }
            Ok(Taken { bytes, reply: None }) => {
                // No message, no entry.
                assert_eq!(self.bench, before.bench);
                Ok((bytes, None))
            }
            Ok(Taken {
                bytes,
                reply: Some(length),
            }) => {
                assert_eq!(self.bench.state.last, before.bench.state.last + 1);
                let reply = self.bench.out[..length].to_vec();
                assert_eq!(self.bench.out[length..], before.bench.out[length..]);
                self.bench.out.fill(0xee);
                Ok((bytes, Some(reply)))
            }
        }
    }

    fn reopen(&mut self, channel: u64) -> Result<(), u64> {
        let before = self.clone();
        let reopened = reopen(&mut self.front, &self.bench.state, channel);
        assert_eq!(self.bench, before.bench);
        assert!(reopened.is_ok() || *self == before);
        reopened
    }

    fn stage(&self, channel: usize) -> Stage {
        self.front.streams[channel].stage
    }

    fn kept(&self, channel: usize) -> &[u8] {
        self.front.streams[channel].kept()
    }

    /// The journal full but for so many entries.
    fn with_room(mut self, room: u64) -> Fronted {
        while self.bench.state.held < 64 - room {
            self.bench.close(0).unwrap();
        }
        self
    }

    fn drain_one(&mut self) {
        let Bench { state, journal, .. } = &mut self.bench;
        assert_eq!(drain(state, journal, &mut [0; 2]), Ok(1));
    }

    /// The kind and second word of the last entry.
    fn entry(&self) -> (u64, u64) {
        let at = ((self.bench.state.last - 1) % 64 * 2) as usize;
        let journal = &self.bench.journal;
        (journal[at] >> 27 & 31, journal[at + 1])
    }
}

fn fronted() -> Fronted {
    Fronted::new(Bench::with_memory())
}

/// Channel 1's front keeps this.
fn keeping(bytes: &[u8]) -> Fronted {
    let mut fronted = fronted();
    assert_eq!(fronted.piece(1, bytes), Ok((bytes.len(), None)));
    fronted
}

/// Channel 1's front drops.
fn dropping() -> Fronted {
    let mut fronted = fronted();
    let over = build::with_length(wire::DATA, 4_097, &[]);
    assert_eq!(fronted.piece(1, &over), Ok((8, Some(vec![]))));
    fronted
}

fn init() -> Vec<u8> {
    build::init_req(1, 0)
}

/// INIT_REQ's answer.
fn ack() -> Vec<u8> {
    hex("00000001 00000002 0000")
}

#[test]
fn a_whole_message_in_one_piece() {
    let mut fronted = fronted();
    assert_eq!(fronted.piece(1, &init()), Ok((12, Some(ack()))));
    assert_eq!(fronted.stage(1), Stage::EMPTY);
    assert!(fronted.bench.state.channels[1].ready);
    // As the agent alone does it.
    let mut alone = Bench::with_memory();
    assert_eq!(alone.receive(1, &init()), Ok(ack()));
    assert_eq!(fronted.bench, alone);
}

#[test]
fn pieces_of_any_length_0_too() {
    for front in FRONTS {
        let mut fronted = front();
        let before = fronted.clone();
        assert_eq!(fronted.piece(1, &[]), Ok((0, None)));
        assert_eq!(fronted, before);
    }
    // Every message cut at every place, with nothing between.
    let message = build::data(build::ours(3), &build::request(memory::QUERY, 9, &[A, B]));
    let reply = Bench::with_memory().receive(2, &message).unwrap();
    for at in 0..message.len() {
        let mut fronted = fronted();
        let (first, second) = message.split_at(at);
        assert_eq!(fronted.piece(2, first), Ok((at, None)));
        assert_eq!(fronted.kept(2), first);
        assert_eq!(fronted.piece(2, &[]), Ok((0, None)));
        let given = fronted.piece(2, second);
        assert_eq!(given, Ok((second.len(), Some(reply.clone()))));
        assert_eq!(fronted.stage(2), Stage::EMPTY);
    }
    // A byte a piece.
    let mut fronted = fronted();
    let (last, before) = message.split_last().unwrap();
    for (at, byte) in before.iter().enumerate() {
        assert_eq!(fronted.stage(2), Stage::Keeping(at));
        assert_eq!(fronted.piece(2, &[*byte]), Ok((1, None)));
    }
    assert_eq!(fronted.piece(2, &[*last]), Ok((1, Some(reply))));
}

#[test]
fn one_unfinished_message_on_each_channel() {
    let mut fronted = Fronted::new(Bench::new(&BLOCK_LIST));
    let message = init();
    for at in 0..11 {
        for channel in 0..4 {
            let byte = &message[at..=at];
            assert_eq!(fronted.piece(channel, byte), Ok((1, None)));
        }
    }
    for channel in 0..4 {
        assert_eq!(fronted.kept(channel as usize), &message[..11]);
        assert_eq!(fronted.piece(channel, &[0]), Ok((1, Some(ack()))));
        assert_eq!(fronted.stage(channel as usize), Stage::EMPTY);
        assert_eq!(fronted.bench.state.last, 2 + channel);
    }
}

#[test]
fn to_the_end_of_one_message_at_most() {
    let two = [init(), build::of_handle(wire::UNREG, 5)].concat();
    for extra in 0..two.len() {
        let mut fronted = fronted();
        let piece = [&two[..], &two[..extra]].concat();
        assert_eq!(fronted.piece(1, &piece), Ok((12, Some(ack()))));
        // Nothing of the rest is kept.
        assert_eq!(fronted.stage(1), Stage::EMPTY);
        let nack = build::of_handle(wire::UNREG_NACK, 5);
        assert_eq!(fronted.piece(1, &piece[12..]), Ok((16, Some(nack))));
        let rest = &piece[28..];
        match extra {
            0..12 => assert_eq!(fronted.piece(1, rest), Ok((extra, None))),
            _ => assert_eq!(fronted.piece(1, rest), Ok((12, Some(ack())))),
        }
    }
    // With a part kept only what is missing is taken.
    let mut fronted = keeping(&init()[..5]);
    let piece = [&init()[5..], &init(), &init()].concat();
    assert_eq!(fronted.piece(1, &piece), Ok((7, Some(ack()))));
    // A header alone is a message if its payload_len is 0.
    let mut fronted = self::fronted();
    let bare = build::ds(wire::DATA, &[]);
    let twice = [&bare[..], &bare].concat();
    assert_eq!(fronted.piece(2, &twice), Ok((8, Some(vec![]))));
    assert!(!fronted.bench.state.channels[2].ready);
    assert_eq!(fronted.stage(2), Stage::EMPTY);
}

#[test]
fn a_refused_message_has_taken_nothing() {
    let whole = [init(), init()].concat();
    for (kept, piece) in [(0, &whole[..]), (5, &whole[5..]), (11, &whole[11..])] {
        let mut fronted = keeping(&init()[..kept]).with_room(0);
        for _ in 0..2 {
            assert_eq!(fronted.piece(1, piece), Err(4));
            assert_eq!(fronted.kept(1), &init()[..kept]);
        }
        fronted.drain_one();
        assert_eq!(fronted.piece(1, piece), Ok((12 - kept, Some(ack()))));
        assert_eq!(fronted.piece(1, &whole[12..]), Err(4));
        fronted.drain_one();
        // Another cutting of it is as good.
        assert_eq!(fronted.piece(1, &whole[12..15]), Ok((3, None)));
        assert_eq!(fronted.piece(1, &whole[15..]), Ok((9, Some(ack()))));
    }
    // The eighth byte of a header that would close and drop.
    let over = build::with_length(wire::INIT_REQ, 4_097, &[1, 2]);
    let mut fronted = keeping(&over[..3]).with_room(0);
    assert_eq!(fronted.piece(1, &over[3..]), Err(4));
    assert_eq!(fronted.stage(1), Stage::Keeping(3));
    fronted.drain_one();
    assert_eq!(fronted.piece(1, &over[3..]), Ok((5, Some(vec![]))));
    // The last number.
    let mut fronted = keeping(&init()[..5]);
    fronted.bench.state.last = 4_294_967_295;
    assert_eq!(fronted.piece(1, &init()[5..]), Err(5));
    assert_eq!(fronted.piece(2, &init()), Err(5));
    assert_eq!(fronted.piece(1, &init()[5..11]), Ok((6, None)));
}

#[test]
fn what_gives_no_message_needs_no_room() {
    let mut fronted = keeping(&init()[..3]).with_room(0);
    assert_eq!(fronted.piece(1, &init()[3..9]), Ok((6, None)));
    assert_eq!(fronted.piece(2, &init()[..11]), Ok((11, None)));
    assert_eq!(fronted.piece(2, &[]), Ok((0, None)));
    assert_eq!(fronted.reopen(1), Ok(()));
    let mut fronted = dropping().with_room(0);
    assert_eq!(fronted.piece(1, &init()), Ok((12, None)));
    assert_eq!(fronted.reopen(1), Ok(()));
}

/// Fronts whose channel 1 is empty, keeps a byte, keeps all but two bytes of
/// INIT_REQ, or drops.
const FRONTS: [fn() -> Fronted; 4] = [
    fronted,
    || keeping(&[0]),
    || keeping(&init()[..10]),
    dropping,
];

/// Each front with pieces that end a message, keep bytes, or are dropped.
fn situations() -> Vec<(Box<Fronted>, Vec<u8>)> {
    let pieces = [init(), vec![0], vec![]];
    let fronts = FRONTS.iter().flat_map(|front| [*front; 3]);
    let situations = fronts.zip(pieces.into_iter().cycle());
    situations
        .map(|(front, piece)| (Box::new(front()), piece))
        .collect()
}

/// Every piece is refused so, on channel 1 or another one.
fn each_gives(change: fn(&mut Fronted), channel: u64, number: u64) {
    for (mut fronted, bytes) in situations() {
        change(&mut fronted);
        assert_eq!(fronted.piece(channel, &bytes), Err(number));
    }
}

/// Reopening is so on channel 1 or another one.
fn reopening_gives(change: fn(&mut Fronted), channel: u64, expected: Result<(), u64>) {
    for (mut fronted, _) in situations() {
        change(&mut fronted);
        assert_eq!(fronted.reopen(channel), expected);
    }
}

#[test]
fn refusals_of_every_call_in_order() {
    for (fronted, bytes) in situations() {
        assert!(fronted.clone().piece(1, &bytes).is_ok());
        assert!(fronted.clone().reopen(1).is_ok());
    }
    // Each with those after it.
    let unsound: fn(&mut Fronted) = |fronted| {
        fronted.bench.state.last = 0;
        fronted.bench.journal.pop();
        fronted.bench.out.truncate(2591);
    };
    each_gives(unsound, 9, 8);
    reopening_gives(unsound, 9, Err(8));
    let journal: fn(&mut Fronted) = |fronted| {
        fronted.bench.journal.push(0);
        fronted.bench.out.truncate(2591);
        fronted.bench.state.held = 64;
        fronted.bench.state.last = 100;
    };
    each_gives(journal, 9, 1);
    reopening_gives(journal, 9, Err(3));
    reopening_gives(journal, 1, Ok(()));
    let output: fn(&mut Fronted) = |fronted| {
        fronted.bench.out.truncate(2591);
        fronted.bench.state.held = 64;
        fronted.bench.state.last = 100;
    };
    each_gives(output, 9, 2);
    reopening_gives(output, 1, Ok(()));
    let full: fn(&mut Fronted) = |fronted| {
        fronted.bench.state.held = 64;
        fronted.bench.state.last = 100;
    };
    for channel in [4, 5, 1 << 32, 1 << 32 | 1, u64::MAX] {
        each_gives(full, channel, 3);
        reopening_gives(full, channel, Err(3));
    }
    // 4 before 5, and only for a message.
    let last: fn(&mut Fronted) = |fronted| {
        fronted.bench.state.held = 64;
        fronted.bench.state.last = 4_294_967_295;
    };
    let mut fronted = fronted();
    last(&mut fronted);
    assert_eq!(fronted.piece(1, &init()), Err(4));
    fronted.drain_one();
    assert_eq!(fronted.piece(1, &init()), Err(5));
}

/// A front whose channel 3 keeps so many bytes, with this header.
fn made(length: usize, header: &[u8]) -> Front {
    let mut front = Front::default();
    front.streams[3].stage = Stage::Keeping(length);
    front.streams[3].bytes[..header.len()].copy_from_slice(header);
    front
}

/// Whether piece and reopen take this front, on every channel.
fn is_taken(front: &Front) -> bool {
    let taken = [0, 1, 2, 3].map(|channel| {
        let mut fronted = fronted();
        fronted.front = front.clone();
        let given = fronted.clone().piece(channel, &[]);
        let reopened = fronted.reopen(channel);
        assert!(given.is_ok() == reopened.is_ok());
        assert!(given.is_ok() || (given, reopened) == (Err(8), Err(8)));
        reopened.is_ok()
    });
    assert!(taken == [true; 4] || taken == [false; 4]);
    taken[0]
}

#[test]
fn kept_parts_that_no_pieces_leave() {
    let header = |payload| build::with_length(0xffff_ffff, payload, &[]);
    // Of less than 8 bytes each is the beginning of a message.
    for length in 0..8 {
        assert!(is_taken(&made(length, &[0xff; 8])));
    }
    for (payload, most) in [
        (0, 7),
        (1, 8),
        (2, 9),
        (4_095, 4_102),
        (4_096, 4_103),
        (4_097, 7),
        (4_098, 7),
        (1 << 16, 7),
        (1 << 31, 7),
        (u32::MAX, 7),
    ] {
        for length in (0..20).chain([most, most + 1, 4_102, 4_103, 4_104, 4_105, 4_106]) {
            let expected = length <= most;
            let front = made(length, &header(payload));
            assert_eq!(is_taken(&front), expected, "{length} of {payload}");
        }
    }
    for length in [4_104, 4_105, 1 << 20, usize::MAX] {
        assert!(!is_taken(&made(length, &header(4_096))));
        assert!(!is_taken(&made(length, &header(u32::MAX))));
    }
    // The bytes after those kept are free.
    let mut front = made(9, &header(2));
    front.streams[3].bytes[9..].fill(0xff);
    assert!(is_taken(&front));
    front.streams[2].stage = Stage::Dropping;
    assert!(is_taken(&front));
}

#[test]
fn payload_len_of_4_096_is_not_above_it() {
    let message = build::data(build::ours(3), &[0x5a; 4_088]);
    assert_eq!(message.len(), MAX_MESSAGE);
    let reply = Bench::with_memory().receive(2, &message).unwrap();
    for at in [0, 1, 7, 8, 9, 16, 4_102, 4_103] {
        let mut fronted = fronted();
        assert_eq!(fronted.piece(2, &message[..at]), Ok((at, None)));
        let given = fronted.piece(2, &[&message[at..], &message].concat());
        assert_eq!(given, Ok((4_104 - at, Some(reply.clone()))));
        assert_eq!(fronted.stage(2), Stage::EMPTY);
    }
}

#[test]
fn payload_len_above_4_096_closes_at_its_eighth_byte() {
    for payload in [4_097, 4_098, 8_192, 1 << 16, 1 << 31, u32::MAX] {
        for ds_type in [wire::INIT_REQ, wire::DATA, wire::REG_REQ, 0x77] {
            let over = build::with_length(ds_type, payload, &[]);
            for kept in 0..8 {
                // With bytes after the eighth, and without.
                for rest in [&[][..], &init()] {
                    let mut fronted = fronted();
                    assert_eq!(fronted.piece(2, &over[..kept]), Ok((kept, None)));
                    assert!(fronted.bench.state.channels[2].ready);
                    let piece = [&over[kept..], rest].concat();
                    assert_eq!(fronted.piece(2, &piece), Ok((8 - kept, Some(vec![]))));
                    assert_eq!(fronted.stage(2), Stage::Dropping);
                    assert_eq!(fronted.entry(), (2, 1));
                    let channel = &fronted.bench.state.channels[2];
                    assert!(!channel.ready);
                    assert_eq!(channel.services, [Service::Idle; 4]);
                    // The agent received the eight.
                    let mut alone = Bench::with_memory();
                    assert_eq!(alone.receive(2, &over), Ok(vec![]));
                    assert_eq!(fronted.bench, alone);
                }
            }
        }
    }
    // Seven bytes of it close nothing.
    let mut fronted = fronted();
    let over = build::with_length(wire::DATA, u32::MAX, &[]);
    assert_eq!(fronted.piece(2, &over[..7]), Ok((7, None)));
    assert!(fronted.bench.state.channels[2].ready);
}

#[test]
fn further_bytes_are_dropped_until_it_is_reopened() {
    let mut fronted = dropping();
    for bytes in [&init()[..], &[0; 20_000], &[], &[7]] {
        assert_eq!(fronted.piece(1, bytes), Ok((bytes.len(), None)));
        assert_eq!(fronted.stage(1), Stage::Dropping);
    }
    // Other channels go on.
    assert_eq!(fronted.piece(3, &init()), Ok((12, Some(ack()))));
    assert_eq!(fronted.reopen(3), Ok(()));
    assert_eq!(fronted.stage(1), Stage::Dropping);
    assert_eq!(fronted.reopen(1), Ok(()));
    assert_eq!(fronted.stage(1), Stage::EMPTY);
    assert_eq!(fronted.piece(1, &init()), Ok((12, Some(ack()))));
}

#[test]
fn reopening_leaves_it_empty_dropping_or_not() {
    let fronts: [fn() -> Fronted; 3] = [
        || keeping(&[0xff; 7]),
        || keeping(&build::data(9, &[3; 100])[..8]),
        || keeping(&build::data(9, &[3; 100])[..115]),
    ];
    for front in FRONTS.into_iter().chain(fronts) {
        let mut fronted = front();
        for channel in [0, 2, 3] {
            let before = fronted.clone();
            assert_eq!(fronted.reopen(channel), Ok(()));
            assert_eq!(fronted, before);
        }
        assert_eq!(fronted.reopen(1), Ok(()));
        assert_eq!(fronted.front, Front::default());
        // What comes next is the beginning of a message.
        assert_eq!(fronted.piece(1, &init()), Ok((12, Some(ack()))));
    }
}

#[test]
fn badly_formed_messages_start_no_dropping() {
    let bad = [
        build::ds(0x77, &[]),
        build::ds(wire::INIT_REQ, &[0, 1]),
        build::ds(wire::INIT_ACK, &[0, 0]),
        build::ds(wire::REG_REQ, &[0; 4_096]),
        build::ds(u32::MAX, &[0xff; 4_096]),
        build::ds(wire::DATA, &[1; 7]),
    ];
    for message in bad {
        let mut fronted = fronted();
        let (piece, taken) = ([&message[..], &init()].concat(), message.len());
        assert_eq!(fronted.piece(2, &piece), Ok((taken, Some(vec![]))));
        assert!(!fronted.bench.state.channels[2].ready);
        assert_eq!(fronted.entry(), (2, 1));
        assert_eq!(fronted.stage(2), Stage::EMPTY);
        assert_eq!(fronted.piece(2, &init()), Ok((12, Some(ack()))));
    }
    // A message on a closed channel likewise.
    let mut fronted = fronted();
    let message = build::of_handle(wire::UNREG, 1);
    assert_eq!(fronted.piece(1, &message), Ok((16, Some(vec![]))));
    assert_eq!((fronted.entry(), fronted.stage(1)), ((2, 1), Stage::EMPTY));
}

/// The agent's own calls on channel 2.
type OwnCall = fn(&mut Bench);
const OWN_CALLS: [OwnCall; 9] = [
    |bench| drop(bench.receive(2, &init()).unwrap()),
    |bench| drop(bench.receive(2, &build::init_req(0, 0)).unwrap()),
    |bench| drop(bench.receive(2, &[]).unwrap()),
    |bench| drop(bench.close(2).unwrap()),
    |bench| drop(bench.withdraw(2, 0).unwrap()),
    |bench| drop(bench.offer(2, 1).unwrap()),
    |bench| drop(bench.permit(2, true).unwrap()),
    |bench| drop(bench.receive(2, &build::nack(7, 3)).unwrap()),
    |bench| drop(bench.drain()),
];

#[test]
fn the_agents_own_calls_leave_a_front_as_it_is() {
    let message = build::of_handle(wire::UNREG, 77);
    let over = build::with_length(wire::DATA, 5_000, &[]);
    for call in OWN_CALLS {
        for kept in 0..16 {
            let mut fronted = fronted();
            fronted.piece(2, &message[..kept]).unwrap();
            call(&mut fronted.bench);
            assert_eq!(fronted.kept(2), &message[..kept]);
            // The message then meets the channel as it is.
            let mut alone = fronted.bench.clone();
            let reply = alone.receive(2, &message).unwrap();
            let given = fronted.piece(2, &message[kept..]);
            assert_eq!(given, Ok((16 - kept, Some(reply))));
            assert_eq!(fronted.bench, alone);
        }
        let mut fronted = fronted();
        fronted.piece(2, &over).unwrap();
        // The channel is closed; what dropping began is not ended by it.
        fronted.bench.receive(2, &init()).unwrap();
        fronted.bench.offer(2, 0).unwrap();
        call(&mut fronted.bench);
        assert_eq!(fronted.stage(2), Stage::Dropping);
        assert_eq!(fronted.piece(2, &init()), Ok((12, None)));
    }
}

#[test]
fn an_empty_state_refuses_both() {
    let mut fronted = fronted();
    fronted.bench.state = State::default();
    assert_eq!(fronted.piece(0, &[]), Err(8));
    assert_eq!(fronted.reopen(0), Err(8));
}
