//! What permissions, requests of orders and taking met.

pub mod line;

use crate::lines::Call;
use crate::order::service::{read, DENIED, PENDING, REPLY_BYTES};
use crate::order::{Order, Orders, MAX_DELAY, PANIC, SHUTDOWN};
use crate::state::State;
use crate::wire::{self, get32, Message, DATA_START};

/// What a request meets.
const REQUEST: &str = "success, denied, denied while an order waits, pending by shutdown, \
     pending by panic, wrong length while permitted, wrong length while denied, \
     wrong length while an order waits";
const LENGTHS: &str = "0, 1, 2, 3, 4, 5, 6, 7, 8, 9, 10, 11, 12, 13";
/// The longest data whose length is counted.
const COUNTED_BYTES: usize = 13;

/// The counts of orders that any long list of calls must reach.
pub const MUST_REACH: [(&str, &str); 23] = [
    ("call permit", "accepted, refused"),
    ("call take", "accepted, refused"),
    ("refusal 1", "permit, take"),
    ("refusal 2", "permit, take"),
    ("refusal 3", "permit"),
    ("refusal 4", "permit, take"),
    ("refusal 6", "take"),
    ("entry kind", "19, 20, 21"),
    ("entry code", "19/0, 19/1, 21/0, 21/1, 21/2"),
    (
        "order reply",
        "success, failure denied, failure pending, invalid message",
    ),
    ("order taken", "shutdown, panic"),
    (
        "order kept by",
        "close, a message that closes, INIT_REQ, a version refused, withdraw, UNREG, permit",
    ),
    ("shutdown request", REQUEST),
    ("panic request", REQUEST),
    ("shutdown data of bytes", LENGTHS),
    ("panic data of bytes", LENGTHS),
    ("shutdown delay", "0, up to 1000, other, 2^32 - 1"),
    ("permit", "2 permitted, 2 denied, 3 permitted, 3 denied"),
    ("permit refused", "0, 1, 4, above 4"),
    ("show of service 2", "empty"),
    ("show of service 3", "empty"),
    ("permit line bad", line::PERMIT),
    ("take line bad", line::TAKE),
];

fn service_name(service: usize) -> &'static str {
    match service {
        SHUTDOWN => "shutdown",
        _ => "panic",
    }
}

/// Data under a handle that is registered for service 2 or 3.
fn reached<'a>(state: &State, channel: u64, message: &'a [u8]) -> Option<(usize, &'a [u8])> {
    let Message::Data { handle, data } = wire::parse(message)? else {
        return None;
    };
    let channel = state.channels.get(channel as usize)?;
    let service = channel.registered(handle)?;
    (service >= SHUTDOWN).then_some((service, data))
}

/// The name for a message of service 2 or 3 that is shown.
pub fn shown(state: &State, call: &Call) -> Option<String> {
    let Call::Show(channel, message) = call else {
        return None;
    };
    let (service, data) = reached(state, *channel, message)?;
    (!data.is_empty()).then(|| format!("show of service {service} empty"))
}

/// The names of what a call meets in a state, if it is accepted.
pub fn names(state: &State, call: &Call) -> Vec<String> {
    match call {
        Call::Permit(service, permitted) => {
            let how = if *permitted { "permitted" } else { "denied" };
            vec![format!("permit {service} {how}")]
        }
        Call::Receive(channel, message) => match reached(state, *channel, message) {
            Some((service, data)) => request(&state.orders, service, data),
            None => Vec::new(),
        },
        _ => Vec::new(),
    }
}

/// What a request meets.
fn request(orders: &Orders, service: usize, data: &[u8]) -> Vec<String> {
    let name = service_name(service);
    let order = read(service, data);
    let permitted = orders.permitted[service - SHUTDOWN];
    let met = match (order, permitted, orders.waiting) {
        (None, true, None) => "wrong length while permitted".into(),
        (None, false, None) => "wrong length while denied".into(),
        (None, _, Some(_)) => "wrong length while an order waits".into(),
        (_, false, None) => "denied".into(),
        (_, false, Some(_)) => "denied while an order waits".into(),
        (_, _, Some(waiting)) => format!("pending by {}", service_name(waiting.service())),
        (_, _, None) => "success".to_string(),
    };
    let mut names = Vec::new();
    if let ("success", Some(Order::Shutdown { delay })) = (met.as_str(), order) {
        let delay = match delay {
            0 => "0",
            1..=1_000 => "up to 1000",
            MAX_DELAY => "2^32 - 1",
            _ => "other",
        };
        names.push(format!("shutdown delay {delay}"));
    }
    names.push(format!("{name} request {met}"));
    if data.len() <= COUNTED_BYTES {
        names.push(format!("{name} data of bytes {}", data.len()));
    }
    names
}

/// Whether a call is about a channel on which the service of the order that
/// waits is live.
pub fn touches(state: &State, call: &Call) -> bool {
    let (Call::Receive(channel, _) | Call::Withdraw(channel, _) | Call::Close(channel)) = call
    else {
        return matches!(call, Call::Permit(..)) && state.orders.waiting.is_some();
    };
    let channel = state.channels.get(*channel as usize);
    let waiting = state.orders.waiting.zip(channel);
    waiting.is_some_and(|(order, channel)| channel.services[order.service()].handle().is_some())
}

/// What an order was kept by, from the call and the kind and service of its
/// entry.
pub fn kept(order: Order, call: &Call, kind: u64, service: u64) -> Option<String> {
    let own = service == order.service() as u64;
    let by = match (kind, call) {
        (1, _) => "INIT_REQ",
        (2, Call::Close(_)) => "close",
        (2, _) => "a message that closes",
        (3, _) => "a version refused",
        (7, Call::Withdraw(..)) if own => "withdraw",
        (7, _) if own => "UNREG",
        (19, _) if own => "permit",
        _ => return None,
    };
    Some(format!("order kept by {by}"))
}

/// The result and reason of a reply, if it is one to a request of an order. No
/// other reply has its length.
pub fn reply(reply: &[u8]) -> Option<&'static str> {
    let reason = reply.get(DATA_START + REPLY_BYTES..)?;
    let result = get32(reply, DATA_START + 8);
    match (get32(reply, 0), result, reason) {
        (wire::DATA, 0, b"") => Some("success"),
        (wire::DATA, 1, DENIED) => Some("failure denied"),
        (wire::DATA, 1, PENDING) => Some("failure pending"),
        (wire::DATA, 2, b"") => Some("invalid message"),
        _ => None,
    }
}

/// The service of a permit that is refused by 3.
pub fn refused_service(service: u64) -> String {
    match service {
        ..=4 => format!("permit refused {service}"),
        _ => "permit refused above 4".into(),
    }
}

/// The name for what stands after `take accepted`.
pub fn taken(rest: &[&str]) -> Option<String> {
    match rest {
        ["shutdown", _] => Some(format!("order taken {}", service_name(SHUTDOWN))),
        ["panic"] => Some(format!("order taken {}", service_name(PANIC))),
        _ => None,
    }
}
