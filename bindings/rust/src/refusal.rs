//! Document 01's refusals.

use core::{error, fmt};

/// Why a call was refused, by document 01's numbers. A refused call has done
/// nothing, and can be made again.
#[derive(Clone, Copy, Debug, PartialEq, Eq)]
pub enum Refusal {
    /// The journal is not 128 words. An [`Agent`](crate::Agent) lends its own, which is.
    Journal = 1,
    /// The output is under 2,592 bytes. An [`Agent`](crate::Agent) lends its own, which is not.
    Output = 2,
    /// Channel or service above 3, a permission of service 0 or 1, or a budget of
    /// 0 or above 65,535.
    Range = 3,
    /// 64 entries are held: drain, save what was drained, and make the call again.
    Held = 4,
    /// Entry number 4,294,967,295 is used: drain what is held, and set up anew.
    Numbers = 5,
    /// Offer: channel closed or service not idle; withdraw: service idle; work:
    /// nothing outstanding; take: no order. It need not be a fault: a host may
    /// work and take until it is told so.
    NotAllowed = 6,
    /// Setup: a list breaks a rule.
    List = 7,
    /// The state or the front is not what a call left. An [`Agent`](crate::Agent)
    /// and a [`Front`](crate::Front) change by calls alone, so it is not met with them.
    NotSound = 8,
}

impl Refusal {
    /// Document 01's number.
    pub const fn number(self) -> u64 {
        self as u64
    }

    /// What a number says: accepted, or why not.
    pub(crate) const fn of(number: u64) -> Result<(), Refusal> {
        match number {
            0 => Ok(()),
            1 => Err(Refusal::Journal),
            2 => Err(Refusal::Output),
            3 => Err(Refusal::Range),
            4 => Err(Refusal::Held),
            5 => Err(Refusal::Numbers),
            6 => Err(Refusal::NotAllowed),
            7 => Err(Refusal::List),
            // no other is given, which is proved
            _ => Err(Refusal::NotSound),
        }
    }
}

impl fmt::Display for Refusal {
    fn fmt(&self, f: &mut fmt::Formatter<'_>) -> fmt::Result {
        let why = match self {
            Refusal::Journal => "the journal is not 128 words",
            Refusal::Output => "the output is under 2,592 bytes",
            Refusal::Range => "a channel, service or budget out of range",
            Refusal::Held => "64 entries are held",
            Refusal::Numbers => "the last entry number is used",
            Refusal::NotAllowed => "not allowed as the channel, service, removal or order stands",
            Refusal::List => "a list breaks a rule",
            Refusal::NotSound => "the state is not sound",
        };
        write!(f, "refused {}: {why}", self.number())
    }
}

impl error::Error for Refusal {}
