//! The service `dr-vio`, by source document 000: requests and replies.

use super::{Device, Devices};
use crate::agent::Done;
use crate::entry::Event;
use crate::wire::{self, get32, get64, Writer};

pub const CONFIGURE: u32 = 0x49_4f43;
pub const UNCONFIGURE: u32 = 0x49_4f55;
pub const FORCE_UNCONFIG: u32 = 0x49_4f46;
pub const STATUS: u32 = 0x49_4f53;

/// Request number and device id; under so many bytes the number is 0.
pub const HEADER: usize = 16;
/// Where the name begins: after the header and the message type.
pub const NAME_START: usize = HEADER + 4;
/// The longest name that a message can carry.
pub const LONGEST_NAME: usize = wire::MAX_PAYLOAD - 8 - NAME_START;
/// A reply: request number, result, status and the zero of an empty reason.
pub const REPLY_BYTES: usize = 17;

/// The result code of a reply, and of its entry.
#[derive(Clone, Copy, Debug, PartialEq, Eq)]
pub enum Outcome {
    Ok = 0,
    Failure = 1,
    Blocked = 2,
    NotInMd = 3,
}

/// The status code of a reply.
#[derive(Clone, Copy, Debug, PartialEq, Eq)]
pub enum Status {
    /// Also the status 0 of a FAILURE.
    NotPresent = 0,
    Unconfigured = 1,
    Configured = 2,
}

/// What a request asks for.
#[derive(Clone, Copy, Debug, PartialEq, Eq)]
pub enum Asked {
    Configure,
    Unconfigure,
    ForceUnconfigure,
    Status,
}

/// A request of right form.
pub struct Request<'a> {
    pub asked: Asked,
    pub id: u64,
    /// The name with its zero.
    pub name: &'a [u8],
}

impl Request<'_> {
    /// The request, if its type is known and its name ends in its one zero.
    pub fn read(data: &[u8]) -> Option<Request<'_>> {
        let (fields, name) = data.split_at_checked(NAME_START)?;
        let asked = match get32(fields, HEADER) {
            CONFIGURE => Asked::Configure,
            UNCONFIGURE => Asked::Unconfigure,
            FORCE_UNCONFIG => Asked::ForceUnconfigure,
            STATUS => Asked::Status,
            _ => return None,
        };
        wire::ends_at_only_zero(name).then(|| Request {
            asked,
            id: get64(fields, 8),
            name,
        })
    }
}

/// The number of a request, 0 if it has not the whole header.
pub fn request_number(data: &[u8]) -> u64 {
    match data.len() {
        HEADER.. => get64(data, 0),
        _ => 0,
    }
}

impl Asked {
    /// Does it to a known device, if nothing blocks it. A device that is
    /// already as asked is so before busy is looked at.
    fn act(self, device: &mut Device) -> Outcome {
        match self {
            Asked::Status => {}
            Asked::Configure => device.configured = true,
            Asked::Unconfigure if device.configured && device.busy => return Outcome::Blocked,
            Asked::Unconfigure | Asked::ForceUnconfigure => device.configured = false,
        }
        Outcome::Ok
    }

    /// The result for a device that is not in the list.
    fn unknown(self) -> Outcome {
        match self {
            Asked::Status => Outcome::Failure,
            _ => Outcome::NotInMd,
        }
    }
}

/// Answers data that reached service 1 under `handle`: the form, then whether
/// the device is known, then what was asked.
pub fn answer(devices: &mut Devices, handle: u64, data: &[u8], out: &mut [u8]) -> Done {
    let request = request_number(data);
    let read = Request::read(data);
    let known = read
        .as_ref()
        .and_then(|read| devices.find(read.id, read.name));
    let (event, result, status) = match (read, known) {
        (Some(read), Some(place)) => {
            let device = &mut devices.list[place];
            let result = read.asked.act(device);
            let (configured, status) = match device.configured {
                true => (true, Status::Configured),
                false => (false, Status::Unconfigured),
            };
            let event = Event::Device {
                result,
                place,
                configured,
            };
            (event, result, status)
        }
        (read, _) => {
            let result = read.map_or(Outcome::Failure, |read| read.asked.unknown());
            let event = Event::NoDevice { result, request };
            (event, result, Status::NotPresent)
        }
    };
    let reply = Writer::message(out, wire::DATA, 8 + REPLY_BYTES)
        .put64(handle)
        .put64(request)
        .put32(result as u32)
        .put32(status as u32)
        .bytes(&[0]);
    (event, reply.length())
}
