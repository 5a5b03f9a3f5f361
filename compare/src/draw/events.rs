//! Events of every kind.

use peer::Event;

use crate::draw::addresses::address;
use crate::draw::numbers::{amount, beyond};
use crate::draw::references::reference;
use crate::draw::words::word;
use crate::fields::{address_of, place_of, FROZEN, RELOCATE, SR0, WORDS};
use crate::random::Random;

/// An event to follow in a history; the store says what is worth trying.
pub fn event(random: &mut Random, store: &[u16]) -> Event {
    if store.len() == WORDS && stuck(store[SR0]) && random.percent(25) {
        return revive(random);
    }
    match random.below(100) {
        0..=59 => reference(random, store),
        60..=76 => write(random),
        77..=83 => Event::Read {
            address: address(random),
        },
        84..=86 => Event::Instruction { va: random.word() },
        87..=88 => Event::Interrupt {
            vector: random.word(),
        },
        89..=98 => Event::Change {
            register: register(random),
            amount: amount(random),
        },
        _ => Event::Init,
    }
}

/// Frozen, or relocation off.
fn stuck(sr0: u16) -> bool {
    sr0 & FROZEN != 0 || sr0 & RELOCATE == 0
}

/// A write that thaws SR0 and turns relocation on.
fn revive(random: &mut Random) -> Event {
    Event::Write {
        address: address_of(SR0),
        value: random.word() & !FROZEN | RELOCATE,
    }
}

/// A write of a word such as the addressed register may hold.
fn write(random: &mut Random) -> Event {
    let address = address(random);
    let value = match place_of(address) {
        Some(place) if random.percent(80) => word(random, place),
        _ => random.word(),
    };
    Event::Write { address, value }
}

fn register(random: &mut Random) -> u32 {
    if random.percent(10) {
        beyond(random, 8)
    } else {
        random.below(8)
    }
}
