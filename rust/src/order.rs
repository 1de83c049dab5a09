//! Shutdown and panic orders, ticket 6 of 02: what the host permits, the one
//! order that waits for it, and the calls permit and take.

pub mod service;

use crate::entry::{record, Event, OrderEvent};
use crate::state::{refusal, State};

/// The service `domain-shutdown`.
pub const SHUTDOWN: usize = 2;
/// The service `domain-panic`.
pub const PANIC: usize = 3;
/// A shutdown's delay has 32 bits.
pub const MAX_DELAY: u64 = u32::MAX as u64;
/// The entries of permit and take have channel 0.
const NO_CHANNEL: u64 = 0;

/// What a permitted request leaves for the host.
#[derive(Clone, Copy, Debug, PartialEq, Eq)]
pub enum Order {
    /// With a delay in milliseconds, at most `MAX_DELAY` in a sound state.
    Shutdown {
        delay: u64,
    },
    Panic,
}

impl Order {
    /// A shutdown's delay, else 0.
    pub fn delay(&self) -> u64 {
        match *self {
            Order::Shutdown { delay } => delay,
            Order::Panic => 0,
        }
    }

    /// The service whose requests leave it.
    pub fn service(&self) -> usize {
        match self {
            Order::Shutdown { .. } => SHUTDOWN,
            Order::Panic => PANIC,
        }
    }
}

/// Permissions and the order that waits: one for the whole agent. All is
/// denied until set.
#[derive(Clone, Copy, Debug, Default, PartialEq, Eq)]
pub struct Orders {
    /// Of services 2 and 3.
    pub permitted: [bool; 2],
    pub waiting: Option<Order>,
}

impl Orders {
    /// Whether a shutdown's delay has 32 bits.
    pub fn keep_rules(&self) -> bool {
        self.waiting.is_none_or(|order| order.delay() <= MAX_DELAY)
    }
}

/// Sets whether service 2 or 3 is permitted; gives the length of the reply, 0.
pub fn permit(
    state: &mut State,
    service: u64,
    permitted: bool,
    journal: &mut [u64],
    out: &mut [u8],
) -> Result<usize, u64> {
    let in_range = (SHUTDOWN as u64..=PANIC as u64).contains(&service);
    state.admit(journal, out, in_range)?;
    let service = service as usize;
    state.orders.permitted[service - SHUTDOWN] = permitted;
    let set = OrderEvent::Permitted { service, permitted };
    record(state, journal, NO_CHANNEL, Event::Order(set));
    Ok(0)
}

/// Takes the order that waits. The reply has length 0.
pub fn take(state: &mut State, journal: &mut [u64], out: &mut [u8]) -> Result<Order, u64> {
    state.admit(journal, out, true)?;
    let order = state.orders.waiting.take().ok_or(refusal::NOT_NOW)?;
    record(state, journal, NO_CHANNEL, Event::Order(OrderEvent::Taken));
    Ok(order)
}
