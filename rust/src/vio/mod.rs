//! One end of the VIO version handshake, written from ticket 10 and from
//! section 1.1.2 of document 004. Beside it: two such ends as a program
//! over lines, a generator of random lists of lines, and the counts of what a
//! list reached.

mod answer;
mod call;
pub mod counts;
pub mod end;
pub mod generate;
mod host;
pub mod words;

pub use answer::{Answer, Fault, Request};
pub use call::Call;
pub use end::{End, ListFault, Received, Rule, Session, Version};
pub use host::{Done, Host};
pub use words::{Message, Words};

/// What a line of the program is.
pub type Line = crate::lines::LineOf<Call>;

/// The refusals of the calls.
pub mod refusal {
    /// Versions that are no list of different majors from 1 up.
    pub const VERSIONS: u64 = 7;
    /// No end was set up.
    pub const NO_END: u64 = 8;
}
