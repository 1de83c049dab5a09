//! What device requests met, from the state before them.

use crate::device::service::{
    request_number, Asked, Request, CONFIGURE, FORCE_UNCONFIG, LONGEST_NAME, NAME_START, STATUS,
    UNCONFIGURE,
};
use crate::device::Devices;
use crate::lines::Call;
use crate::state::State;
use crate::wire::{self, get32, Message};

/// What a request of a known device meets, if nothing can block it.
pub const CHANGED: &str = "busy configured -> OK, busy unconfigured -> OK, \
     idle configured -> OK, idle unconfigured -> OK";
pub const UNKNOWN: &str = "CONFIGURE neither listed, CONFIGURE id listed, CONFIGURE name listed, \
     CONFIGURE both listed apart, UNCONFIGURE neither listed, UNCONFIGURE id listed, \
     UNCONFIGURE name listed, UNCONFIGURE both listed apart, FORCED neither listed, \
     FORCED id listed, FORCED name listed, FORCED both listed apart, STATUS neither listed, \
     STATUS id listed, STATUS name listed, STATUS both listed apart";
pub const BAD_FORM: &str =
    "under 16 bytes, no type, no name, type, no zero, zero inside only, zero inside and at the end";
pub const LENGTHS: &str =
    "0, 1, 2, 3, 4, 5, 6, 7, 8, 9, 10, 11, 12, 13, 14, 15, 16, 17, 18, 19, 20, 21";
pub const NAMES: &str = "known of 1 byte, known of 8 bytes, known of 256 bytes, \
     known of other length, unknown of 256 bytes, unknown of 257 bytes, unknown of more bytes, \
     unknown of the most bytes";

/// The last number of a device request.
#[derive(Default)]
pub struct Requests {
    last: Option<u64>,
}

impl Requests {
    /// The names of what data for service 1 meets in a state, if the call is
    /// accepted.
    pub fn names(&mut self, state: &State, call: &Call) -> Vec<String> {
        let (Call::Receive(channel, message) | Call::Show(channel, message)) = call else {
            return Vec::new();
        };
        let Some(Message::Data { handle, data }) = wire::parse(message) else {
            return Vec::new();
        };
        let channel = state.channels.get(*channel as usize);
        if channel.and_then(|channel| channel.registered(handle)) != Some(1) {
            return Vec::new();
        }
        if matches!(call, Call::Show(..)) {
            let part = !data.is_empty();
            let shown = part.then(|| "show of service 1 empty".into());
            return shown.into_iter().collect();
        }
        let mut names = vec![self.number(data)];
        if data.len() <= NAME_START + 1 {
            names.push(format!("device data of bytes {}", data.len()));
        }
        names.extend(request(&state.devices, data));
        names
    }

    fn number(&mut self, data: &[u8]) -> String {
        let number = request_number(data);
        let how = match self.last.replace(number) {
            None => "first",
            Some(last) if number > last => "higher",
            Some(last) if number == last => "equal",
            Some(_) => "lower",
        };
        format!("device number {how}")
    }
}

fn asked_name(asked: Asked) -> &'static str {
    match asked {
        Asked::Configure => "CONFIGURE",
        Asked::Unconfigure => "UNCONFIGURE",
        Asked::ForceUnconfigure => "FORCED",
        Asked::Status => "STATUS",
    }
}

/// What a message is, and what its name is.
fn request(devices: &Devices, data: &[u8]) -> Vec<String> {
    let Some(request) = Request::read(data) else {
        return vec![format!("device bad form {}", bad_form(data))];
    };
    let asked = asked_name(request.asked);
    let Some(place) = devices.find(request.id, request.name) else {
        let mut listed = devices.listed().iter();
        let id = listed.any(|device| device.id == request.id);
        let mut listed = devices.listed().iter();
        let name = listed.any(|device| device.name() == request.name);
        let which = match (id, name) {
            (false, false) => "neither listed",
            (true, false) => "id listed",
            (false, true) => "name listed",
            (true, true) => "both listed apart",
        };
        let met = format!("device unknown {asked} {which}");
        return [Some(met), unknown_name(request.name)]
            .into_iter()
            .flatten()
            .collect();
    };
    let device = &devices.list[place];
    let busy = if device.busy { "busy" } else { "idle" };
    let (configured, blocked) = match device.configured {
        true => ("configured", device.busy && asked == "UNCONFIGURE"),
        false => ("unconfigured", false),
    };
    let result = if blocked { "BLOCKED" } else { "OK" };
    let length = match device.length {
        1 => "1 byte",
        8 => "8 bytes",
        256 => "256 bytes",
        _ => "other length",
    };
    vec![
        format!("device {asked} {busy} {configured} -> {result}"),
        format!("device name known of {length}"),
    ]
}

fn unknown_name(name: &[u8]) -> Option<String> {
    let length = match name.len() {
        ..=255 => return None,
        256 => "256 bytes",
        257 => "257 bytes",
        LONGEST_NAME => "the most bytes",
        _ => "more bytes",
    };
    Some(format!("device name unknown of {length}"))
}

/// Why a message is of bad form.
fn bad_form(data: &[u8]) -> &'static str {
    match data.len() {
        0..=15 => return "under 16 bytes",
        16..=19 => return "no type",
        _ => {}
    }
    let types = [CONFIGURE, UNCONFIGURE, FORCE_UNCONFIG, STATUS];
    if !types.contains(&get32(data, 16)) {
        return "type";
    }
    match data[NAME_START..].split_last() {
        None => "no name",
        Some((0, _)) => "zero inside and at the end",
        Some((_, before)) if before.contains(&0) => "zero inside only",
        Some(_) => "no zero",
    }
}
