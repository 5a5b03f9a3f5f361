//! The proved KT11-C, a static library, beside the independent Rust version:
//! what both are run on, and how what they do is compared and timed.

pub mod codes;
mod counts;
pub mod cuts;
pub mod draw;
pub mod edges;
pub mod fields;
pub mod history;
pub mod limits;
pub mod met;
pub mod options;
pub mod print;
pub mod programs;
pub mod proved;
pub mod race;
pub mod random;
pub mod readings;
pub mod record_codes;
pub mod recordings;
pub mod replays;
pub mod shrink;
pub mod slips;
pub mod tally;
pub mod texts;
pub mod trips;
