//! The independent agent of rust/. No call is inlined, since none of the
//! static library's is.

use crate::Agent;

pub struct Independent;

impl Agent for Independent {
    type State = independent::State;
    type Front = independent::Front;

    fn setup(
        blocks: &[u64],
        devices: &[u64],
        ids: &[u64],
        journal: &mut [u64],
    ) -> Result<Self::State, u64> {
        independent::setup(blocks, devices, ids, journal)
    }

    #[inline(never)]
    fn receive(
        state: &mut Self::State,
        channel: u64,
        message: &[u8],
        journal: &mut [u64],
        out: &mut [u8],
    ) -> Result<usize, u64> {
        independent::receive(state, channel, message, journal, out)
    }

    fn offer(
        state: &mut Self::State,
        channel: u64,
        service: u64,
        journal: &mut [u64],
        out: &mut [u8],
    ) -> Result<usize, u64> {
        independent::offer(state, channel, service, journal, out)
    }

    #[inline(never)]
    fn work(
        state: &mut Self::State,
        budget: u64,
        journal: &mut [u64],
        out: &mut [u8],
    ) -> Result<(u64, usize), u64> {
        let worked = independent::work(state, budget, journal, out)?;
        Ok((worked.pages, worked.length))
    }

    #[inline(never)]
    fn permit(
        state: &mut Self::State,
        service: u64,
        journal: &mut [u64],
        out: &mut [u8],
    ) -> Result<usize, u64> {
        independent::permit(state, service, true, journal, out)
    }

    #[inline(never)]
    fn take(state: &mut Self::State, journal: &mut [u64], out: &mut [u8]) -> Result<u64, u64> {
        let order = independent::take(state, journal, out)?;
        Ok(order.delay())
    }

    #[inline(never)]
    fn drain(state: &mut Self::State, journal: &[u64], run: &mut [u64]) -> Result<usize, u64> {
        independent::drain(state, journal, run)
    }

    #[inline(never)]
    fn piece(
        front: &mut Self::Front,
        state: &mut Self::State,
        channel: u64,
        bytes: &[u8],
        journal: &mut [u64],
        out: &mut [u8],
    ) -> Result<(usize, bool), u64> {
        let taken = independent::piece(front, state, channel, bytes, journal, out)?;
        Ok((taken.bytes, taken.reply.is_some()))
    }
}
