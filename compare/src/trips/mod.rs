//! Recordings written and read by both sides: single writes, whole trips there and back, and
//! the reading of damaged ones.

mod draw;
pub mod reads;
pub mod rounds;
mod sides;
mod write_edges;
pub mod writes;

use peer::Event;

/// What fills a buffer where no byte of a record should come.
const FILL: u8 = 0xa5;

/// The bytes of an event's record.
fn length(event: Event) -> usize {
    match event {
        Event::Reference { .. } => 7,
        Event::Read { .. } => 4,
        Event::Write { .. } => 6,
        Event::Instruction { .. } | Event::Interrupt { .. } | Event::Change { .. } => 3,
        Event::Init => 1,
    }
}

/// The kinds of event in the order of their records.
const KINDS: [&str; 7] = [
    "reference",
    "read",
    "write",
    "instruction",
    "interrupt",
    "change",
    "init",
];

fn kind(event: Event) -> &'static str {
    KINDS[match event {
        Event::Reference { .. } => 0,
        Event::Read { .. } => 1,
        Event::Write { .. } => 2,
        Event::Instruction { .. } => 3,
        Event::Interrupt { .. } => 4,
        Event::Change { .. } => 5,
        Event::Init => 6,
    }]
}
