//! The public operations on a lent store of any length: refusal 1 comes first.

use crate::events::{self, Answer, Event};
use crate::recording;
use crate::reference::refer;
use crate::refusals;
use crate::register_words;
use crate::registers::Store;
use crate::status;

/// Lends the store on if it has 100 words; otherwise refusal 1.
fn lend(store: &mut [u16], operation: impl FnOnce(&mut Store) -> Answer) -> Answer {
    match <&mut Store>::try_from(store) {
        Ok(store) => operation(store),
        Err(_) => Answer::Refused(refusals::STORE_LENGTH),
    }
}

/// Applies one event.
pub fn apply(store: &mut [u16], event: Event) -> Answer {
    lend(store, |store| events::apply(store, event))
}

/// A reference: granted, aborted or refused.
#[inline(always)]
pub fn reference(
    store: &mut [u16],
    mode: u32,
    space: u32,
    access: u32,
    phase: u32,
    va: u16,
) -> Answer {
    match <&mut Store>::try_from(store) {
        Ok(store) => refer(store, mode, space, access, phase, va),
        Err(_) => Answer::Refused(refusals::STORE_LENGTH),
    }
}

/// Register read: the implemented bits of the register at an address.
#[inline(always)]
pub fn read_register(store: &[u16], address: u32) -> Answer {
    match <&Store>::try_from(store) {
        Ok(store) => register_words::read(store, address),
        Err(_) => Answer::Refused(refusals::STORE_LENGTH),
    }
}

/// Register write.
#[inline(always)]
pub fn write_register(store: &mut [u16], address: u32, value: u16) -> Answer {
    lend(store, |store| register_words::write(store, address, value))
}

/// Instruction start at a virtual address.
pub fn instruction_start(store: &mut [u16], va: u16) -> Answer {
    lend(store, |store| status::start(store, va))
}

/// Interrupt start with a vector.
pub fn interrupt_start(store: &mut [u16], vector: u16) -> Answer {
    lend(store, |store| status::start(store, vector))
}

/// Register change noted.
pub fn note_change(store: &mut [u16], register: u32, amount: i32) -> Answer {
    lend(store, |store| status::note_change(store, register, amount))
}

/// INIT.
pub fn init(store: &mut [u16]) -> Answer {
    lend(store, status::init)
}

/// Replays a whole recording and gives its text; refusal 1 comes first, as the
/// only line, and 13 last.
pub fn replay(store: &mut [u16], recording: &[u8]) -> Vec<u8> {
    match <&mut Store>::try_from(store) {
        Ok(store) => recording::replay(store, recording),
        Err(_) => recording::refusal_text(refusals::STORE_LENGTH),
    }
}
