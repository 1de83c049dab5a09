//! The services `domain-shutdown` and `domain-panic`, by sections 3.2 and 3.3
//! of source document 003: requests and replies.

use super::{Order, Orders, PANIC, SHUTDOWN};
use crate::agent::Done;
use crate::entry::{Event, OrderEvent};
use crate::wire::{self, get32, Writer};

/// A shutdown request: request number and delay.
pub const SHUTDOWN_BYTES: usize = 12;
/// A panic request: request number.
pub const PANIC_BYTES: usize = 8;
/// A reply without its reason: request number and result.
pub const REPLY_BYTES: usize = 12;
/// The reasons, which end in a zero.
pub const DENIED: &[u8] = b"denied\0";
pub const PENDING: &[u8] = b"pending\0";

/// The result code of a reply, and of its entry: the same for both services.
#[derive(Clone, Copy, Debug, PartialEq, Eq)]
pub enum Verdict {
    Success = 0,
    Failure = 1,
    InvalidMessage = 2,
}

/// The order that a request of right length asks for.
pub fn read(service: usize, data: &[u8]) -> Option<Order> {
    match (service, data.len()) {
        (SHUTDOWN, SHUTDOWN_BYTES) => {
            let delay = get32(data, 8).into();
            Some(Order::Shutdown { delay })
        }
        (PANIC, PANIC_BYTES) => Some(Order::Panic),
        _ => None,
    }
}

/// The number of a request, 0 if fewer than 8 bytes came.
pub fn request_number(data: &[u8]) -> u64 {
    data.first_chunk()
        .map_or(0, |number| u64::from_be_bytes(*number))
}

/// The result and reason of a request, and the delay of an order left: the
/// length is tested first, then the permission, then whether an order waits.
fn judge(orders: &mut Orders, service: usize, data: &[u8]) -> (Verdict, &'static [u8], u64) {
    let Some(order) = read(service, data) else {
        return (Verdict::InvalidMessage, b"", 0);
    };
    if !orders.permitted[service - SHUTDOWN] {
        return (Verdict::Failure, DENIED, 0);
    }
    if orders.waiting.is_some() {
        return (Verdict::Failure, PENDING, 0);
    }
    orders.waiting = Some(order);
    (Verdict::Success, b"", order.delay())
}

/// Answers data that reached `service`, 2 or 3, under `handle`.
pub fn answer(
    orders: &mut Orders,
    service: usize,
    handle: u64,
    data: &[u8],
    out: &mut [u8],
) -> Done {
    let (result, reason, delay) = judge(orders, service, data);
    let reply = Writer::message(out, wire::DATA, 8 + REPLY_BYTES + reason.len())
        .put64(handle)
        .put64(request_number(data))
        .put32(result as u32)
        .bytes(reason);
    let answered = OrderEvent::Answered {
        service,
        result,
        delay,
    };
    (Event::Order(answered), reply.length())
}
