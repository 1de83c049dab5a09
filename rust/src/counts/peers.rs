//! What id lists, id lines and the services of the peer met.

pub mod line;
pub mod lists;
pub mod requests;

/// The handles that a message may name.
const HANDLES: &str = "ours offered, ours registered, ours not live, ours of another channel, \
     a peer's live, a peer's ended, a peer's of another channel, bare entry number";

/// The counts of the peer's services that any long list of calls must reach.
pub const MUST_REACH: [(&str, &str); 21] = [
    ("call show", "part"),
    ("entry kind", "22, 23, 24"),
    ("DS sent", "REG_ACK"),
    ("peer REG_REQ", requests::ANSWERS),
    ("peer DUP", requests::BEFORE),
    ("peer id", requests::IDS),
    ("peer acknowledged", requests::ACKNOWLEDGED),
    ("peer live on a channel", "1, 2, 3, 4, 5, 6, 7, 8"),
    ("peers dropped by", requests::DROPPED),
    ("peer not dropped by", requests::KEPT),
    ("handle of REG_ACK", HANDLES),
    ("handle of REG_NACK", HANDLES),
    ("handle of UNREG", HANDLES),
    ("handle of DATA", HANDLES),
    ("show of a peer's data", requests::SHOWN),
    ("peer data of", "0 bytes, other bytes, the most bytes"),
    ("peer lines", "kept by a bad setup line"),
    ("id list", lists::ACCEPTED),
    ("id list refused", lists::REFUSED),
    ("peer line bad", line::BAD),
    (
        "peer handle",
        "0, a bare entry number of ours, 2^63 - 1, other",
    ),
];
