//! An agent written from 01-scope.md and 02-change-requests.md alone: the
//! guest's end of Domain Services, the services for memory, virtual devices,
//! shutdown and panic, the peer's registrations, and the journal. Before it a
//! front for a stream in pieces. Beside it: the host's line format, a
//! generator of random lists of calls, and the counts of what a list reached.
//! `reader` is the reader of saved entries of ticket 3, `saved` makes files
//! for it. `vio` is the version handshake of ticket 10, with the same.

pub mod agent;
pub mod block;
pub mod build;
pub mod comparing;
pub mod counts;
pub mod device;
pub mod entry;
pub mod front;
pub mod generate;
pub mod lines;
pub mod memory;
pub mod order;
pub mod peer;
pub mod reader;
pub mod removal;
pub mod saved;
pub mod state;
pub mod vio;
pub mod wire;

pub use agent::{close, drain, offer, receive, setup, show, withdraw};
pub use block::{Block, Blocks, Pair};
pub use device::{Device, Devices};
pub use front::{piece, reopen, Front, Taken};
pub use order::{permit, take, Order, Orders};
pub use peer::{Id, Ids, Peers};
pub use removal::{work, Removal, Settled, Worked};
pub use state::{refusal, Channel, Service, State};
