//! The guest's end of Domain Services for sun4v logical domains: the proved
//! agent, by its static library (`tools/build exports`), for safe Rust. It needs
//! neither the standard library nor an allocator.
//!
//! An [`Agent`] owns its state, its journal and the output that replies are
//! written to, so that refusals 1 and 2 of document 01 are never met and 8 is not
//! either. What is proved is of the library; this crate only lends it the words.
//!
//! Document 01's day at the panel: a channel is made ready, `dr-mem` offered and
//! registered, block A taken away in three steps, and the journal drained.
//!
//! ```
//! use arkelutz::{Agent, Block, Kind, Refusal, Service};
//!
//! let blocks = [
//!     Block::new(0x1000_0000, 4).configured(true),
//!     Block::new(0x2000_0000, 2).configured(true).permanent(1, 1),
//! ];
//! let mut agent = Agent::setup(&blocks, &[], &[])?;
//!
//! let init_req = [0, 0, 0, 0, 0, 0, 0, 4, 0, 1, 0, 0];
//! assert_eq!(agent.receive(2, &init_req)?, [0, 0, 0, 1, 0, 0, 0, 2, 0, 0]);
//!
//! // REG_REQ tells our handle: the top bit over the number of the offer's entry
//! let reg_req = agent.offer(2, Service::Memory)?;
//! let handle: [u8; 8] = reg_req[8..16].try_into().unwrap();
//! assert_eq!(u64::from_be_bytes(handle), 1 << 63 | 3);
//!
//! let mut reg_ack = vec![0, 0, 0, 4, 0, 0, 0, 10];
//! reg_ack.extend(handle);
//! reg_ack.extend([0, 0]);
//! assert!(agent.receive(2, &reg_ack)?.is_empty());
//!
//! // UNCONFIGURE of block A with request number 9; its reply comes from work
//! let mut unconfigure = vec![0, 0, 0, 9, 0, 0, 0, 0x28];
//! unconfigure.extend(handle);
//! unconfigure.extend([0, 0, 0x4d, 0x55, 0, 0, 0, 1, 0, 0, 0, 0, 0, 0, 0, 9]);
//! unconfigure.extend(0x1000_0000_u64.to_be_bytes());
//! unconfigure.extend(0x8000_u64.to_be_bytes());
//! assert!(agent.receive(2, &unconfigure)?.is_empty());
//! assert_eq!(agent.work(3)?.pages, 3);
//! assert_eq!(agent.work(3)?.pages, 1);
//! assert_eq!(agent.work(1)?.reply.len(), 60);
//! assert_eq!(agent.work(1).err(), Some(Refusal::NotAllowed));
//!
//! let trail: Vec<_> = agent.drain()?.collect();
//! let words: Vec<_> = trail.iter().map(|entry| entry.words()).collect();
//! assert_eq!(words, [
//!     [0x00000001f8000000, 0],
//!     [0x000000020c000000, 0],
//!     [0x0000000324000000, 0],
//!     [0x000000042c000000, 1 << 63 | 3],
//!     [0x0000000564000001, 9],
//!     [0x0000000674000003, 0],
//!     [0x000000077c000001, 0],
//!     [0x0000000884000001, 9],
//! ]);
//! assert_eq!(trail[5].kind, Kind::Collected);
//! assert_eq!(trail[5].count, 3);
//!
//! // INIT_REQ 3.0 is told major 1
//! let init_req_3 = [0, 0, 0, 0, 0, 0, 0, 4, 0, 3, 0, 0];
//! assert_eq!(agent.receive(2, &init_req_3)?, [0, 0, 0, 2, 0, 0, 0, 2, 0, 1]);
//! # Ok::<(), Refusal>(())
//! ```

#![no_std]
#![warn(missing_docs)]

mod agent;
mod entry;
mod front;
mod lists;
pub mod raw;
mod refusal;

pub use agent::{Agent, Order, Service, Worked};
pub use entry::{Entries, Entry, Kind};
pub use front::{Front, Piece};
pub use lists::{Block, Device, Id};
pub use refusal::Refusal;
