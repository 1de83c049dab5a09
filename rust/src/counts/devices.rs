//! What device lists, device lines and device requests met.

pub mod line;
pub mod lists;
pub mod requests;

/// The counts of devices that any long list of calls must reach.
pub const MUST_REACH: [(&str, &str); 17] = [
    ("entry kind", "18"),
    ("entry code", "18/0, 18/2"),
    ("entry code 10 of service 1", "1, 3"),
    ("device CONFIGURE", requests::CHANGED),
    ("device FORCED", requests::CHANGED),
    ("device STATUS", requests::CHANGED),
    (
        "device UNCONFIGURE",
        "busy configured -> BLOCKED, busy unconfigured -> OK, \
         idle configured -> OK, idle unconfigured -> OK",
    ),
    ("device unknown", requests::UNKNOWN),
    ("device bad form", requests::BAD_FORM),
    ("device data of bytes", requests::LENGTHS),
    ("device name", requests::NAMES),
    ("device number", "higher, equal, lower"),
    ("show of service 1", "empty"),
    ("device lines", "kept by a bad setup line"),
    ("device list", lists::ACCEPTED),
    ("device list refused", lists::REFUSED),
    ("device line bad", line::BAD),
];
