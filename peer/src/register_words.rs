//! Register read and register write.

use crate::events::Answer;
use crate::refusals;
use crate::registers::{
    implemented_bits, place, Store, PAR_WRITTEN, PDR, PDR_A, PDR_W, PDR_WRITTEN, SR0, SR0_CAUSE,
    SR0_WRITTEN, SR3, SR3_WRITTEN,
};

/// Register read: the implemented bits.
#[inline(always)]
pub fn read(store: &Store, address: u32) -> Answer {
    match addressed(address) {
        Ok(place) => Answer::Word(store[place] & implemented_bits(place)),
        Err(number) => Answer::Refused(number),
    }
}

/// Register write: each kind of register takes its own bits.
#[inline(always)]
pub fn write(store: &mut Store, address: u32, value: u16) -> Answer {
    match addressed(address) {
        Ok(place) => {
            store_value(store, place, value);
            Answer::Done
        }
        Err(number) => Answer::Refused(number),
    }
}

/// The place of the register at an address, or refusal 6, 7 or 8.
#[inline]
fn addressed(address: u32) -> Result<usize, u8> {
    if address > 0o777777 {
        Err(refusals::ADDRESS_TOO_HIGH)
    } else if address & 1 != 0 {
        Err(refusals::ADDRESS_ODD)
    } else {
        place(address).ok_or(refusals::ADDRESS_UNKNOWN)
    }
}

#[inline]
fn store_value(store: &mut Store, place: usize, value: u16) {
    match place {
        // A PAR write also clears A and W of the page's PDR and no other bit there.
        0..PDR => {
            store[place] = value & PAR_WRITTEN;
            store[PDR + place] &= !(PDR_A | PDR_W);
        }
        // A and W are not among the bits a PDR write takes, so it clears them.
        PDR..SR0 => store[place] = value & PDR_WRITTEN,
        SR0 => store[SR0] = value & SR0_WRITTEN | store[SR0] & SR0_CAUSE,
        SR3 => store[SR3] = value & SR3_WRITTEN,
        // SR1 and SR2: accepted, and changes nothing.
        _ => {}
    }
}
