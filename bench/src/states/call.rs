//! A call and what it is lent.

use super::{fronts, lists, make, message};
use crate::proved::Front;
use independent::generate::random::Random;
use independent::state::{JOURNAL_WORDS, OUTPUT_BYTES};
use independent::State;

#[derive(Clone, Debug)]
pub enum Call {
    Receive(u64, Vec<u8>),
    Offer(u64, u64),
    Withdraw(u64, u64),
    Close(u64),
    Work(u64),
    Drain,
    Show(u64, Vec<u8>),
    /// Blocks, devices and ids.
    Setup([Vec<u64>; 3]),
    /// Any number but 0 permits.
    Permit(u64, u64),
    Take,
    Piece(u64, Vec<u8>),
    Reopen(u64),
}

/// The calls by name, and the refusal numbers that each can have; 0 is
/// acceptance.
pub const CALLS: [(&str, &[usize]); 12] = [
    ("receive", &[0, 1, 2, 3, 4, 5, 8]),
    ("offer", &[0, 1, 2, 3, 4, 5, 6, 8]),
    ("withdraw", &[0, 1, 2, 3, 4, 5, 6, 8]),
    ("close", &[0, 1, 2, 3, 4, 5, 8]),
    ("work", &[0, 1, 2, 3, 4, 5, 6, 8]),
    ("drain", &[0, 1, 8]),
    ("show", &[0]),
    ("setup", &[0, 1, 7]),
    ("permit", &[0, 1, 2, 3, 4, 5, 8]),
    ("take", &[0, 1, 2, 4, 5, 6, 8]),
    ("piece", &[0, 1, 2, 3, 4, 5, 8]),
    ("reopen", &[0, 3, 8]),
];

impl Call {
    /// The call's place in CALLS.
    pub fn number(&self) -> usize {
        match self {
            Call::Receive(..) => 0,
            Call::Offer(..) => 1,
            Call::Withdraw(..) => 2,
            Call::Close(..) => 3,
            Call::Work(..) => 4,
            Call::Drain => 5,
            Call::Show(..) => 6,
            Call::Setup(..) => 7,
            Call::Permit(..) => 8,
            Call::Take => 9,
            Call::Piece(..) => 10,
            Call::Reopen(..) => 11,
        }
    }

    /// Whether it is a call of the front.
    pub fn is_of_front(&self) -> bool {
        matches!(self, Call::Piece(..) | Call::Reopen(..))
    }

    /// A random call for a state, most of the time of the agent; else of the
    /// front, which is made for it.
    pub fn random(random: &mut Random, state: &State, front: &mut Front) -> Call {
        match random.once_in(6) {
            true => Call::of_front(random, state, front),
            false => Call::of_agent(random, state),
        }
    }

    fn of_front(random: &mut Random, state: &State, front: &mut Front) -> Call {
        let channel = place(random);
        if random.once_in(4) {
            fronts::before_reopen(random, front, state, channel);
            return Call::Reopen(channel);
        }
        let service = random.below(4) as usize;
        let channel = channel_of(random, state, service).unwrap_or(channel);
        Call::Piece(channel, fronts::piece(random, front, state, channel))
    }

    fn of_agent(random: &mut Random, state: &State) -> Call {
        let channel = place(random);
        let service = place(random);
        match random.below(39) {
            26..=29 => {
                let service = random.between(2, 3) as usize;
                let channel = channel_of(random, state, service).unwrap_or(channel);
                let message = message::for_order(random, state, channel, service);
                Call::Receive(channel, message)
            }
            30 | 31 => permit(random),
            32 | 33 => Call::Take,
            22..=25 => {
                let channel = channel_of(random, state, 1).unwrap_or(channel);
                Call::Receive(channel, message::for_device(random, state, channel))
            }
            20 | 21 => Call::Setup(lists::any(random)),
            34..=38 => {
                let channel = channel_with_peers(random, state).unwrap_or(channel);
                Call::Receive(channel, message::for_peer(random, state, channel))
            }
            0..=8 => {
                let channel = channel_of(random, state, 0).unwrap_or(channel);
                Call::Receive(channel, message::any(random, state, channel))
            }
            9 | 10 => Call::Offer(channel, service),
            11 | 12 => Call::Withdraw(channel, service),
            13 => Call::Close(channel),
            14..=16 => Call::Work(budget(random, state)),
            17 => Call::Drain,
            _ => {
                let channel = channel_with_peers(random, state).unwrap_or(channel);
                Call::Show(channel, message::for_show(random, state, channel))
            }
        }
    }
}

/// Permit, mostly of service 2 or 3.
fn permit(random: &mut Random) -> Call {
    let place = place(random);
    let service = random.pick(&[2, 3, 2, 3, place, 1 << 32 | 2]);
    Call::Permit(service, random.pick(&[0, 0, 1, 1, 2, 1 << 32, u64::MAX]))
}

/// A channel or service: mostly 0 to 3.
fn place(random: &mut Random) -> u64 {
    match random.once_in(30) {
        true => random.pick(&[4, 5, 1 << 32, u64::MAX]),
        false => random.below(4),
    }
}

/// Mostly a channel on which the service is live, if there is one.
fn channel_of(random: &mut Random, state: &State, service: usize) -> Option<u64> {
    let live = |channel: &u64| state.channels[*channel as usize].services[service].handle();
    let channels: Vec<u64> = (0..4).filter(|channel| live(channel).is_some()).collect();
    (!channels.is_empty() && !random.once_in(3)).then(|| random.pick(&channels))
}

/// Mostly a channel that is ready and has registrations of the peer, or else is
/// ready, if there is one.
fn channel_with_peers(random: &mut Random, state: &State) -> Option<u64> {
    let channels = 0..4u64;
    let ready = channels.filter(|channel| state.channels[*channel as usize].ready);
    let ready: Vec<u64> = ready.collect();
    let with = ready.iter().copied();
    let with = with.filter(|channel| state.peers[*channel as usize].count() > 0);
    let with: Vec<u64> = with.collect();
    let picked = random.pick_any(&with).filter(|_| !random.once_in(4));
    let picked = picked.or_else(|| random.pick_any(&ready));
    picked.filter(|_| !random.once_in(8))
}

/// A budget: beside its bounds, and beside what remains at the position.
fn budget(random: &mut Random, state: &State) -> u64 {
    if random.once_in(15) {
        return random.pick(&[0, 65_536, u64::MAX]);
    }
    let remaining = state.removal.map_or(1, |removal| {
        let pages = make::pages_at_position(state, &removal).unwrap_or(0);
        pages.wrapping_sub(removal.collected)
    });
    let near = random.pick(&[remaining, remaining, remaining.wrapping_sub(1)]);
    let few = random.between(1, 12);
    random.pick(&[1, few, few, near.clamp(1, 65_535), 65_535])
}

/// The journal, output and run of a call: it is lent the first words or bytes
/// of each, the rest must stay.
#[derive(Clone, PartialEq)]
pub struct Lent {
    pub journal: [u64; 130],
    pub output: [u8; 2_600],
    pub run: [u64; 132],
    pub journal_words: usize,
    pub output_bytes: usize,
    pub run_words: usize,
}

impl Lent {
    pub fn random(random: &mut Random, state: &State) -> Lent {
        let any = random.up_to(130);
        let held = state.held.min(64) * 2;
        let below = held.saturating_sub(1);
        let run_words = random.pick(&[any, any, held, below, held + 1, 0, 1, 127, 128]);
        let mut lent = Lent {
            journal: [0; 130],
            output: [0; 2_600],
            run: [0; 132],
            journal_words: JOURNAL_WORDS,
            output_bytes: OUTPUT_BYTES,
            run_words: run_words as usize,
        };
        if random.once_in(25) {
            lent.journal_words = random.pick(&[127, 129, 0]);
        }
        if random.once_in(25) {
            lent.output_bytes = random.pick(&[2_591, 2_591, 2_593, 672, 0]);
        }
        lent.journal.fill_with(|| random.next());
        lent.run.fill_with(|| random.next());
        for bytes in lent.output.chunks_exact_mut(8) {
            bytes.copy_from_slice(&random.next().to_ne_bytes());
        }
        lent
    }

    /// What the call is lent.
    pub fn parts(&mut self) -> (&mut [u64], &mut [u8], &mut [u64]) {
        (
            &mut self.journal[..self.journal_words],
            &mut self.output[..self.output_bytes],
            &mut self.run[..self.run_words],
        )
    }
}
