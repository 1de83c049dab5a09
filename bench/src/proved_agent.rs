//! The proved agent as the benchmark calls it.

use crate::Agent;
use bench::proved::{self, Front, Words, STATE_WORDS};

/// 0 is acceptance, any other number the refusal.
fn outcome<T>(refusal: u64, value: T) -> Result<T, u64> {
    match refusal {
        0 => Ok(value),
        number => Err(number),
    }
}

pub struct Proved;

impl Agent for Proved {
    type State = Words;
    type Front = Front;

    fn setup(
        blocks: &[u64],
        devices: &[u64],
        ids: &[u64],
        journal: &mut [u64],
    ) -> Result<Self::State, u64> {
        let mut state = [0; STATE_WORDS];
        let refusal = proved::setup(&mut state, blocks, devices, ids, journal);
        outcome(refusal, state)
    }

    fn receive(
        state: &mut Self::State,
        channel: u64,
        message: &[u8],
        journal: &mut [u64],
        out: &mut [u8],
    ) -> Result<usize, u64> {
        let answer = proved::receive(state, channel, message, journal, out);
        outcome(answer.refusal, answer.length)
    }

    fn offer(
        state: &mut Self::State,
        channel: u64,
        service: u64,
        journal: &mut [u64],
        out: &mut [u8],
    ) -> Result<usize, u64> {
        let answer = proved::offer(state, channel, service, journal, out);
        outcome(answer.refusal, answer.length)
    }

    fn work(
        state: &mut Self::State,
        budget: u64,
        journal: &mut [u64],
        out: &mut [u8],
    ) -> Result<(u64, usize), u64> {
        let worked = proved::work(state, budget, journal, out);
        outcome(worked.refusal, (worked.pages, worked.length))
    }

    fn permit(
        state: &mut Self::State,
        service: u64,
        journal: &mut [u64],
        out: &mut [u8],
    ) -> Result<usize, u64> {
        let answer = proved::permit(state, service, 1, journal, out);
        outcome(answer.refusal, answer.length)
    }

    fn take(state: &mut Self::State, journal: &mut [u64], out: &mut [u8]) -> Result<u64, u64> {
        let taken = proved::take(state, journal, out);
        outcome(taken.refusal, taken.delay)
    }

    fn drain(state: &mut Self::State, journal: &[u64], run: &mut [u64]) -> Result<usize, u64> {
        let drained = proved::drain(state, journal, run);
        outcome(drained.refusal, drained.entries)
    }

    fn piece(
        front: &mut Self::Front,
        state: &mut Self::State,
        channel: u64,
        bytes: &[u8],
        journal: &mut [u64],
        out: &mut [u8],
    ) -> Result<(usize, bool), u64> {
        let piece = proved::piece(front, state, channel, bytes, journal, out);
        outcome(piece.refusal, (piece.taken, piece.given != 0))
    }
}
