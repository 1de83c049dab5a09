//! Any cutting of one channel's stream gives what the whole stream gives, with
//! the same drains at the same messages.

mod common;
use common::*;
use independent::front::Stage;
use independent::generate::random::Random;
use independent::{build, drain, memory, piece, receive, wire, Front, State};

/// The channel of the streams.
const CHANNEL: u64 = 2;

/// An agent and its front where a stream begins.
#[derive(Clone)]
struct Start {
    bench: Bench,
    front: Front,
}

/// What a stream gave: the replies to its messages, the entries drained and
/// then held, and what is left.
#[derive(Debug, PartialEq)]
struct Outcome {
    replies: Vec<Vec<u8>>,
    entries: Vec<[u64; 2]>,
    state: State,
    journal: Vec<u64>,
    front: Front,
}

/// The agent while a stream is given to it.
struct Run<'a> {
    bench: Bench,
    front: Front,
    /// How many entries are drained at each message that is refused.
    drains: &'a [usize],
    replies: Vec<Vec<u8>>,
    drained: Vec<[u64; 2]>,
}

impl<'a> Run<'a> {
    fn new(start: &Start, drains: &'a [usize]) -> Run<'a> {
        Run {
            bench: start.bench.clone(),
            front: start.front.clone(),
            drains,
            replies: Vec::new(),
            drained: Vec::new(),
        }
    }

    /// The drain that belongs to the message that was refused.
    fn drain(&mut self) {
        let entries = self.drains[self.replies.len() % self.drains.len()];
        let mut run = vec![0; 2 * entries];
        let Bench { state, journal, .. } = &mut self.bench;
        let count = drain(state, journal, &mut run).unwrap();
        assert_eq!(count, entries.min(64));
        let entries = run.chunks_exact(2).take(count);
        self.drained
            .extend(entries.map(|entry| [entry[0], entry[1]]));
    }

    fn reply(&mut self, length: usize) {
        self.replies.push(self.bench.out[..length].to_vec());
    }

    /// Offers a piece, again after a drain if it is refused; gives how much of
    /// it was taken.
    fn offer(&mut self, bytes: &[u8]) -> usize {
        loop {
            let Bench {
                state,
                journal,
                out,
                ..
            } = &mut self.bench;
            match piece(&mut self.front, state, CHANNEL, bytes, journal, out) {
                Ok(taken) => {
                    if let Some(length) = taken.reply {
                        self.reply(length);
                    }
                    return taken.bytes;
                }
                Err(number) => assert_eq!(number, 4),
            }
            self.drain();
        }
    }

    /// A message to the agent itself, likewise.
    fn receive(&mut self, message: &[u8]) {
        loop {
            let Bench {
                state,
                journal,
                out,
                ..
            } = &mut self.bench;
            match receive(state, CHANNEL, message, journal, out) {
                Ok(length) => return self.reply(length),
                Err(number) => assert_eq!(number, 4),
            }
            self.drain();
        }
    }

    fn outcome(self) -> Outcome {
        let Bench { state, journal, .. } = self.bench;
        let held = state.last - state.held + 1..=state.last;
        let slots = held.map(|number| ((number - 1) % 64 * 2) as usize);
        let held = slots.map(|at| [journal[at], journal[at + 1]]);
        Outcome {
            replies: self.replies,
            entries: self.drained.into_iter().chain(held).collect(),
            state,
            journal,
            front: self.front,
        }
    }
}

/// The stream offered in pieces that end at these places, then its rest; what
/// is not taken of a piece is offered next, with the bytes of the next piece
/// behind it if `joined`.
fn cut(start: &Start, drains: &[usize], stream: &[u8], ends: &[usize], joined: bool) -> Outcome {
    let mut run = Run::new(start, drains);
    let mut from = 0;
    for end in ends.iter().copied().chain([stream.len()]) {
        loop {
            from += run.offer(&stream[from..end]);
            if from == end || joined {
                break;
            }
        }
    }
    while from < stream.len() {
        from += run.offer(&stream[from..]);
    }
    run.outcome()
}

/// What the agent alone gives, the stream cut into messages here: a message
/// with a payload_len above 4,096 is its header, and all after it is dropped.
fn by_hand(start: &Start, drains: &[usize], stream: &[u8]) -> Outcome {
    let mut run = Run::new(start, drains);
    let own = &start.front.streams[CHANNEL as usize];
    let mut rest = [own.kept(), stream].concat();
    let mut stage = own.stage;
    while stage != Stage::Dropping && rest.len() >= 8 {
        let payload = u32::from_be_bytes(rest[4..8].try_into().unwrap()) as usize;
        let over = payload > 4_096;
        let length = if over { 8 } else { 8 + payload };
        if rest.len() < length {
            break;
        }
        run.receive(&rest[..length]);
        rest.drain(..length);
        if over {
            stage = Stage::Dropping;
        }
    }
    if stage == Stage::Dropping {
        rest.clear();
    } else {
        stage = Stage::Keeping(rest.len());
    }
    let own = &mut run.front.streams[CHANNEL as usize];
    own.stage = stage;
    own.bytes[..rest.len()].copy_from_slice(&rest);
    run.outcome()
}

/// `dr-mem` registered on channel 2, two ids that the peer may register, and
/// room for so many entries.
fn start(room: u64, front: Front) -> Start {
    let mut bench = Bench::new(&BLOCK_LIST);
    let id = |name: u8| [1, 3, 2, u64::from(name) << 56, 0, 0, 0];
    let ids = [id(b'a'), id(b'b')].concat();
    bench.state = independent::setup(&BLOCK_LIST, &[], &ids, &mut bench.journal).unwrap();
    bench.receive(2, &build::init_req(1, 0)).unwrap();
    bench.offer(2, 0).unwrap();
    bench
        .receive(2, &build::reg_ack(build::ours(3), 0))
        .unwrap();
    while bench.state.held < 64 - room {
        bench.close(0).unwrap();
    }
    Start { bench, front }
}

/// A message that the agent does something about, or a spoilt one. `long` ones
/// have up to the most bytes.
fn message(random: &mut Random, number: &mut u64, long: bool) -> Vec<u8> {
    let handle = random.pick(&[build::ours(3), build::ours(3), 7, 8]);
    *number += random.below(3);
    let bytes = random.pick(&[4_088, 4_087, 600, 64]);
    match random.weighted(&[4, 30, 12, 6, 6, 6, 4, 4, if long { 6 } else { 0 }]) {
        0 => build::init_req(random.pick(&[1, 1, 1, 2]), 0),
        1 => {
            let request = match random.below(4) {
                0 => build::request(memory::QUERY, *number, &[A, B]),
                1 => build::request(memory::UNCONFIGURE, *number, &[D]),
                2 => build::request(memory::CANCEL, *number, &[]),
                _ => build::request(memory::CONFIGURE, *number, &[C, A]),
            };
            build::data(handle, &request)
        }
        2 => build::reg_req(handle, 1, 2, random.pick(&[b"a\0", b"b\0", b"c\0"])),
        3 => build::of_handle(wire::UNREG, handle),
        4 => build::data(handle, &[1, 2, 3]),
        5 => build::nack(handle, 3),
        6 => build::of_handle(wire::UNREG_ACK, handle),
        // A header alone, whose message is badly formed.
        7 => build::ds(random.pick(&[0, 3, 9, 0x77]), &[]),
        _ => build::data(handle, &random.bytes(bytes)),
    }
}

/// A stream of so many messages. `spoilt` ones have a payload_len above 4,096
/// somewhere, or are cut at their end.
fn stream(random: &mut Random, messages: u64, long: bool, spoilt: bool) -> Vec<u8> {
    let mut number = 0;
    let mut stream = Vec::new();
    let over = spoilt && random.once_in(2);
    let place = random.below(messages);
    for at in 0..messages {
        if over && at == place {
            let payload = random.pick(&[4_097, 5_000, u32::MAX]);
            stream.extend(build::with_length(random.pick(&[0, 9]), payload, &[]));
        }
        stream.extend(message(random, &mut number, long));
    }
    if spoilt {
        let cut = random.below(12) as usize;
        stream.truncate(stream.len().saturating_sub(cut));
    }
    stream
}

/// Fronts where a stream may begin: empty, mostly; else one that keeps the
/// beginning of a message, or drops.
fn front(random: &mut Random) -> Front {
    let mut front = Front::default();
    let own = &mut front.streams[CHANNEL as usize];
    match random.below(6) {
        0 => {
            let kept = random.pick(&[1, 3, 7, 8, 15]);
            let message = build::of_handle(wire::UNREG, 7);
            own.bytes[..16].copy_from_slice(&message);
            own.stage = Stage::Keeping(kept);
        }
        1 => own.stage = Stage::Dropping,
        _ => {}
    }
    front
}

/// How many entries are drained at each message, in turn.
fn drains(random: &mut Random) -> Vec<usize> {
    (0..7)
        .map(|_| random.pick(&[1, 1, 1, 2, 5, 33, 64]))
        .collect()
}

/// Places in a stream, in order, some of them more than once.
fn places(random: &mut Random, length: usize) -> Vec<usize> {
    let count = random.pick(&[1, 2, 5, 20, 100]);
    let any = (0..count).map(|_| random.up_to(length as u64) as usize);
    let mut places: Vec<usize> = any.collect();
    places.sort();
    places
}

#[test]
fn all_cuttings_of_short_streams_into_two() {
    let mut random = Random::new(901);
    let mut full = 0;
    for round in 0..120 {
        let messages = random.between(1, 6);
        let stream = stream(&mut random, messages, false, round % 3 == 0);
        let front = front(&mut random);
        let start = start(random.below(4), front);
        let drains = drains(&mut random);
        let whole = cut(&start, &drains, &stream, &[], false);
        assert_eq!(whole, by_hand(&start, &drains, &stream));
        full += usize::from(!whole.replies.is_empty() && whole.state.last > 64);
        for end in 0..=stream.len() {
            for joined in [false, true] {
                let two = cut(&start, &drains, &stream, &[end], joined);
                assert_eq!(two, whole, "cut at {end} of {stream:02x?}");
            }
        }
    }
    // The journal was full in most of them.
    assert!(full > 60, "{full}");
}

#[test]
fn all_cuttings_of_two_messages_into_three() {
    let mut random = Random::new(902);
    for _ in 0..6 {
        let stream = [build::init_req(1, 0), build::of_handle(wire::UNREG, 7)].concat();
        let start = start(random.below(3), front(&mut random));
        let drains = drains(&mut random);
        let whole = cut(&start, &drains, &stream, &[], false);
        for first in 0..=stream.len() {
            for second in first..=stream.len() {
                let three = cut(&start, &drains, &stream, &[first, second], false);
                assert_eq!(three, whole, "cut at {first} and {second}");
            }
        }
    }
}

#[test]
fn random_cuttings_of_long_streams() {
    let mut random = Random::new(903);
    for round in 0..40 {
        let messages = random.between(80, 220);
        let stream = stream(&mut random, messages, true, round % 4 == 0);
        let front = match round % 8 {
            7 => front(&mut random),
            _ => Front::default(),
        };
        let start = start(random.below(64), front);
        let drains = drains(&mut random);
        let whole = cut(&start, &drains, &stream, &[], false);
        assert_eq!(whole, by_hand(&start, &drains, &stream));
        for joined in [false, true, false, true, true] {
            let places = places(&mut random, stream.len());
            let pieces = cut(&start, &drains, &stream, &places, joined);
            assert!(pieces == whole, "cut at {places:?}");
        }
    }
}

#[test]
fn a_byte_a_piece() {
    let mut random = Random::new(904);
    for round in 0..8 {
        let stream = stream(&mut random, 60, round % 2 == 0, false);
        let start = start(random.below(8), Front::default());
        let drains = drains(&mut random);
        let whole = cut(&start, &drains, &stream, &[], false);
        assert_eq!(whole.replies.len(), 60);
        let ends: Vec<usize> = (1..stream.len()).collect();
        assert!(cut(&start, &drains, &stream, &ends, false) == whole);
        // The same with pieces of 0 bytes between.
        let ends: Vec<usize> = (0..2 * stream.len()).map(|twice| twice / 2).collect();
        assert!(cut(&start, &drains, &stream, &ends, false) == whole);
    }
}
