//! Drawn stores and events, with more than their share at the edges of 01's rules.

mod addresses;
mod events;
mod numbers;
mod references;
mod words;

pub use events::event;
pub use words::store;
