//! The proved agent's static library, and random states and calls on which it
//! is compared with the independent agent.

pub use arkelutz::raw as proved;

pub mod states;
