//! The race: the same events on both sides, through functions of one shape, and the same recordings.

pub mod inputs;
pub mod recordings;
pub mod replays;
pub mod rows;
pub mod sides;
pub mod timing;
