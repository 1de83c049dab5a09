//! What the tests on made states and fronts share.

pub mod layout;
pub mod lines;
