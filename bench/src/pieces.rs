//! The benchmark of a stream: queries one behind the other on one channel, as
//! whole messages and in pieces. A round is a whole stream.

use crate::{print_head, print_row, request};
use crate::{Agent, Devices, Host, Independent, Peers, Proved, MEMORY, QUERY};
use std::fmt::{self, Display, Formatter};
use std::time::Instant;

const MESSAGES: u64 = 100_000;
const BLOCKS: u64 = 4;
/// Fewer than of a call: a stream has as many messages as some 2,000 batches.
const ROUNDS: usize = 100;
/// The entries at which the journal is full and is drained.
const FULL: u64 = 64;

/// How the stream is handed over.
#[derive(Clone, Copy)]
enum Cutting {
    /// Each message by itself, to receive.
    Whole,
    /// Pieces of so many bytes, to the front.
    Pieces(usize),
}

impl Cutting {
    const ALL: [Cutting; 4] = [
        Cutting::Whole,
        Cutting::Pieces(1),
        Cutting::Pieces(64),
        Cutting::Pieces(4_096),
    ];
}

impl Display for Cutting {
    fn fmt(&self, text: &mut Formatter) -> fmt::Result {
        match self {
            Cutting::Whole => write!(text, "QUERY stream: whole messages, receive"),
            Cutting::Pieces(bytes) => write!(text, "QUERY stream: pieces of {bytes}, front"),
        }
    }
}

/// A host, the front before it, and the messages given to the agent.
struct Streamed<A: Agent> {
    host: Host<A>,
    front: A::Front,
    given: u64,
}

impl<A: Agent> Streamed<A> {
    fn new() -> Self {
        Streamed {
            host: Host::new(BLOCKS, 1, Devices::NONE, Peers::NONE),
            front: A::Front::default(),
            given: 0,
        }
    }

    /// Counts a message, and drains if the journal is full.
    fn count(&mut self) {
        self.given += 1;
        if self.given.is_multiple_of(FULL) {
            self.host.drain_all();
        }
    }

    /// Offers a piece, and what is not taken of it next.
    fn offer(&mut self, mut piece: &[u8]) {
        while !piece.is_empty() {
            let Host {
                state,
                journal,
                out,
                ..
            } = &mut self.host;
            let offered = A::piece(&mut self.front, state, 0, piece, journal, out);
            let (taken, given) = offered.expect("the piece is accepted");
            piece = &piece[taken..];
            if given {
                self.count();
            }
        }
    }

    fn hand_over(&mut self, cutting: Cutting, stream: &[u8], message: usize) {
        match cutting {
            Cutting::Whole => {
                for message in stream.chunks_exact(message) {
                    self.host.receive(0, message);
                    self.count();
                }
            }
            Cutting::Pieces(bytes) => stream.chunks(bytes).for_each(|piece| self.offer(piece)),
        }
    }

    /// Times a stream of messages of one length, and gives the least nanoseconds a
    /// message so far. The stream ends with a message, so that the front is empty
    /// again.
    fn round(&mut self, cutting: Cutting, stream: &[u8], message: usize, least: f64) -> f64 {
        let saved = self.host.state;
        self.given = 0;
        let begin = Instant::now();
        self.hand_over(cutting, stream, message);
        let nanoseconds = begin.elapsed().as_nanos() as f64 / MESSAGES as f64;
        assert_eq!(self.given, MESSAGES, "{cutting}: a message is missing");
        self.host.state = saved;
        least.min(nanoseconds)
    }
}

/// Times a cutting, and gives what the agents left.
fn row(cutting: Cutting, stream: &[u8], message: usize) -> (Vec<u64>, Vec<u8>, Vec<u64>) {
    let mut ours = Streamed::<Proved>::new();
    let mut theirs = Streamed::<Independent>::new();
    let (mut least, mut least_theirs) = (f64::MAX, f64::MAX);
    for _ in 0..ROUNDS {
        least = ours.round(cutting, stream, message, least);
        least_theirs = theirs.round(cutting, stream, message, least_theirs);
    }
    let seen = ours.host.seen();
    assert_eq!(seen, theirs.host.seen(), "{cutting}: the agents differ");
    print_row(&cutting.to_string(), least, least_theirs);
    seen
}

/// Times every cutting; each must leave what whole messages leave.
pub fn run() {
    let query = |number| request(QUERY, number, 1, BLOCKS, MEMORY);
    let stream: Vec<u8> = (0..MESSAGES).flat_map(query).collect();
    let message = query(0).len();
    print_head("ns a message");
    let [whole, pieces @ ..] = Cutting::ALL.map(|cutting| row(cutting, &stream, message));
    let same = pieces.iter().all(|seen| *seen == whole);
    assert!(same, "a cutting makes a difference");
}
