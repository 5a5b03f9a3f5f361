//! The KT11-C memory management unit of a PDP-11/45, as document 01, request E1
//! (a grant says which page served), request E2 (recordings are written as well
//! as read) and request E4 (recordings of 16 MiB, in pieces) define it; and the
//! text notation of events, as NOTATION.md defines it.
//!
//! The caller lends a register store of 100 sixteen-bit words; every operation
//! on the unit answers with an [`Answer`] and changes that store only as 01
//! says. [`replay`] gives the lines of a whole recording, [`Replay`] those of one
//! that comes in pieces. [`write_record`] and [`read_record`] turn an [`Event`]
//! into its record and back, [`record`] a text into a recording; none of these
//! looks at a store.
//!
//! "Rule 4" in a comment is rule 4 of 01's "A reference"; "refusal 4" is the
//! number in its table of refusals, and refusal 14 is request E2's.

#![forbid(unsafe_code)]

mod events;
mod fields;
mod keys;
mod lines;
mod notation;
mod operations;
mod reading;
mod recording;
mod reference;
mod refusals;
mod register_words;
mod registers;
mod status;
mod text;
mod writing;

pub use events::{Answer, Event};
pub use notation::{read_line, Expected, Line};
pub use operations::{
    apply, init, instruction_start, interrupt_start, note_change, read_register, reference, replay,
    write_register,
};
pub use reading::{read_record, Found};
pub use recording::{Replay, RECORDING_LIMIT};
pub use text::record;
pub use writing::write_record;
