//! Random states, sound and unsound, and a random call on each.

pub mod agents;
pub mod call;
pub mod change;
pub mod counts;
pub mod defects;
pub mod devices;
mod front_counts;
pub mod fronts;
mod lists;
pub mod make;
mod message;
pub mod orders;
mod peers;
pub mod spoil;
pub mod words;
