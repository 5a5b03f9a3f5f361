//! Rows of whole recordings, drawn from a seed.

use peer::Event;

use crate::draw;
use crate::fields::{address_of, WORDS};
use crate::race::inputs::{open, pages, valid};
use crate::random::Random;
use crate::recordings::{record, USUAL};

/// A store, and recordings of at most 32,768 bytes that are replayed on it one after another.
pub struct Tape {
    pub name: &'static str,
    pub store: [u16; WORDS],
    pub recordings: Vec<Vec<u8>>,
}

impl Tape {
    pub fn bytes(&self) -> usize {
        self.recordings.iter().map(Vec::len).sum()
    }
}

/// Recordings in a long run.
const LONG: usize = 64;

pub fn tapes(seed: u64) -> Vec<Tape> {
    let random = &mut Random::new(seed);
    let granted = open(random, 0o6, 0o000001);
    let any = pages(random);
    vec![
        tape(random, "records of every kind", any, 1, draw::event),
        tape(
            random,
            "records of every kind, long",
            any,
            LONG,
            draw::event,
        ),
        tape(random, "references granted", granted, 1, |random, _| {
            valid(random).event()
        }),
        tape(
            random,
            "references granted, long",
            granted,
            LONG,
            |random, _| valid(random).event(),
        ),
        tape(random, "references, mixed", any, 1, |random, _| {
            valid(random).event()
        }),
        tape(random, "register reads", any, 1, |random, _| Event::Read {
            address: register(random),
        }),
        tape(random, "register writes", any, 1, |random, _| {
            Event::Write {
                address: register(random),
                value: random.word(),
            }
        }),
        tape(random, "instruction starts", any, 1, |random, _| {
            Event::Instruction { va: random.word() }
        }),
        tape(random, "INITs", any, 1, |_, _| Event::Init),
        tape(random, "refused events", any, 1, |random, _| {
            refused(random)
        }),
    ]
}

/// So many recordings, each of as many records as its bytes have room for.
fn tape(
    random: &mut Random,
    name: &'static str,
    store: [u16; WORDS],
    count: usize,
    draw: impl Fn(&mut Random, &[u16]) -> Event,
) -> Tape {
    let mut now = store;
    let mut recordings = vec![Vec::with_capacity(USUAL); count];
    for bytes in &mut recordings {
        loop {
            let event = draw(random, &now);
            let record = record(event);
            if bytes.len() + record.len() > USUAL {
                break;
            }
            peer::apply(&mut now, event);
            bytes.extend(record);
        }
    }
    Tape {
        name,
        store,
        recordings,
    }
}

fn register(random: &mut Random) -> u32 {
    address_of(random.below(WORDS as u32) as usize)
}

/// A mode above 3, an address that no register has, or a change by 0.
fn refused(random: &mut Random) -> Event {
    match random.below(4) {
        0 => {
            let mut reference = valid(random);
            reference.mode += 4;
            reference.event()
        }
        1 => Event::Read {
            address: register(random) + 1,
        },
        2 => Event::Write {
            address: random.below(0o772200) & !1,
            value: random.word(),
        },
        _ => Event::Change {
            register: random.below(8),
            amount: 0,
        },
    }
}
