//! The status registers SR0 to SR3: freezing, start events, noted changes, INIT.

use crate::events::Answer;
use crate::refusals;
use crate::registers::{
    Store, SR0, SR0_CAUSE, SR0_LENGTH, SR0_NONRESIDENT, SR0_READONLY, SR1, SR2, SR3,
};

/// Rule 9: frozen while any of SR0's bits 15:13 is set.
#[inline]
pub fn frozen(store: &Store) -> bool {
    store[SR0] & (SR0_NONRESIDENT | SR0_LENGTH | SR0_READONLY) != 0
}

/// Rules 8 and 9: adds the flags of an abort or trap to SR0, and loads bits 7:1
/// with its cause unless SR0 was frozen before.
#[inline]
pub fn record(store: &mut Store, flags: u16, cause: u16) {
    if !frozen(store) {
        store[SR0] = store[SR0] & !SR0_CAUSE | cause;
    }
    store[SR0] |= flags;
}

/// Instruction start with its VA, or interrupt start with its vector.
#[inline]
pub fn start(store: &mut Store, number: u16) -> Answer {
    if !frozen(store) {
        store[SR1] = 0;
        store[SR2] = number;
    }
    Answer::Done
}

/// Register change noted: into SR1's low byte if that is 0, else its high byte.
#[inline]
pub fn note_change(store: &mut Store, register: u32, amount: i32) -> Answer {
    if register > 7 || amount == 0 || !(-16..=15).contains(&amount) {
        return Answer::Refused(refusals::CHANGE);
    }
    if frozen(store) {
        return Answer::Done;
    }
    let change = (amount as u16 & 0o37) << 3 | register as u16;
    if store[SR1] & 0o000377 == 0 {
        store[SR1] |= change;
    } else if store[SR1] & 0o177400 == 0 {
        store[SR1] |= change << 8;
    } else {
        return Answer::Refused(refusals::SR1_FULL);
    }
    Answer::Done
}

/// INIT: SR0 to SR3 become 0; PAR and PDR stay.
#[inline]
pub fn init(store: &mut Store) -> Answer {
    store[SR0..=SR3].fill(0);
    Answer::Done
}
