//! A call on each agent's form of a state, and its answer.

use super::call::{Call, Lent};
use crate::proved::{self, Words};
use independent::{Front, Order, State, Taken, Worked};

/// An agent's form of a state, and of the front before it.
pub struct Form<S, F> {
    pub state: S,
    pub front: F,
}

pub type Ours = Form<Words, proved::Front>;
pub type Theirs = Form<State, Front>;

/// The refusal number, 0 if accepted; the length of the reply or of show's
/// part; work's pages, drain's entries or a piece's bytes taken; take's order and
/// its delay; 1 if a piece gave the agent a message.
#[derive(Clone, Copy, Debug, PartialEq)]
pub struct Answer {
    pub refusal: u64,
    pub length: usize,
    pub count: u64,
    pub order: [u64; 2],
    pub given: u64,
}

/// The refusal number; the length; the pages, entries or bytes.
pub fn answer(refusal: u64, length: usize, count: u64) -> Answer {
    Answer {
        refusal,
        length,
        count,
        order: [0, 0],
        given: 0,
    }
}

/// What take gives: 1 and a delay for shutdown, 2 and 0 for panic.
fn taken(refusal: u64, order: [u64; 2]) -> Answer {
    Answer {
        order,
        ..answer(refusal, 0, 0)
    }
}

impl From<proved::Piece> for Answer {
    fn from(given: proved::Piece) -> Answer {
        Answer {
            given: given.given,
            ..answer(given.refusal, given.length, given.taken as u64)
        }
    }
}

impl From<Result<Taken, u64>> for Answer {
    fn from(given: Result<Taken, u64>) -> Answer {
        match given {
            Ok(taken) => Answer {
                given: taken.reply.is_some().into(),
                ..answer(0, taken.reply.unwrap_or(0), taken.bytes as u64)
            },
            Err(refusal) => answer(refusal, 0, 0),
        }
    }
}

impl From<proved::Answer> for Answer {
    fn from(given: proved::Answer) -> Answer {
        answer(given.refusal, given.length, 0)
    }
}

impl From<Result<usize, u64>> for Answer {
    fn from(given: Result<usize, u64>) -> Answer {
        match given {
            Ok(length) => answer(0, length, 0),
            Err(refusal) => answer(refusal, 0, 0),
        }
    }
}

impl From<Result<Worked, u64>> for Answer {
    fn from(given: Result<Worked, u64>) -> Answer {
        match given {
            Ok(worked) => answer(0, worked.length, worked.pages),
            Err(refusal) => answer(refusal, 0, 0),
        }
    }
}

impl From<Result<Order, u64>> for Answer {
    fn from(given: Result<Order, u64>) -> Answer {
        match given {
            Ok(Order::Shutdown { delay }) => taken(0, [1, delay]),
            Ok(Order::Panic) => taken(0, [2, 0]),
            Err(refusal) => taken(refusal, [0, 0]),
        }
    }
}

pub fn call_proved(form: &mut Ours, call: &Call, lent: &mut Lent) -> Answer {
    let (journal, out, run) = lent.parts();
    let Form { state, front } = form;
    match call {
        Call::Receive(channel, message) => {
            proved::receive(state, *channel, message, journal, out).into()
        }
        Call::Offer(channel, service) => {
            proved::offer(state, *channel, *service, journal, out).into()
        }
        Call::Withdraw(channel, service) => {
            proved::withdraw(state, *channel, *service, journal, out).into()
        }
        Call::Close(channel) => proved::close(state, *channel, journal, out).into(),
        Call::Work(budget) => {
            let worked = proved::work(state, *budget, journal, out);
            answer(worked.refusal, worked.length, worked.pages)
        }
        Call::Drain => {
            let drained = proved::drain(state, journal, run);
            answer(drained.refusal, 0, drained.entries as u64)
        }
        Call::Show(channel, message) => answer(0, proved::show(state, *channel, message), 0),
        Call::Setup([blocks, devices, ids]) => {
            answer(proved::setup(state, blocks, devices, ids, journal), 0, 0)
        }
        Call::Permit(service, permitted) => {
            proved::permit(state, *service, *permitted, journal, out).into()
        }
        Call::Take => {
            let given = proved::take(state, journal, out);
            taken(given.refusal, [given.order, given.delay])
        }
        Call::Piece(channel, piece) => {
            proved::piece(front, state, *channel, piece, journal, out).into()
        }
        Call::Reopen(channel) => answer(proved::reopen(front, state, *channel), 0, 0),
    }
}

pub fn call_independent(form: &mut Theirs, call: &Call, lent: &mut Lent) -> Answer {
    let (journal, out, run) = lent.parts();
    let Form { state, front } = form;
    match call {
        Call::Receive(channel, message) => {
            independent::receive(state, *channel, message, journal, out).into()
        }
        Call::Offer(channel, service) => {
            independent::offer(state, *channel, *service, journal, out).into()
        }
        Call::Withdraw(channel, service) => {
            independent::withdraw(state, *channel, *service, journal, out).into()
        }
        Call::Close(channel) => independent::close(state, *channel, journal, out).into(),
        Call::Work(budget) => independent::work(state, *budget, journal, out).into(),
        Call::Drain => match independent::drain(state, journal, run) {
            Ok(entries) => answer(0, 0, entries as u64),
            Err(refusal) => answer(refusal, 0, 0),
        },
        Call::Show(channel, message) => {
            answer(0, independent::show(state, *channel, message).len(), 0)
        }
        Call::Setup([blocks, devices, ids]) => {
            let made = independent::setup(blocks, devices, ids, journal);
            *state = made.unwrap_or_default();
            answer(made.err().unwrap_or(0), 0, 0)
        }
        Call::Permit(service, permitted) => {
            independent::permit(state, *service, *permitted != 0, journal, out).into()
        }
        Call::Take => independent::take(state, journal, out).into(),
        Call::Piece(channel, piece) => {
            independent::piece(front, state, *channel, piece, journal, out).into()
        }
        Call::Reopen(channel) => independent::reopen(front, state, *channel)
            .map(|()| 0)
            .into(),
    }
}
