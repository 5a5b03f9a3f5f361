//! A reference: rules 1 to 9. Rule 10 holds as SR0 bit 8 is never looked at.

use crate::events::Answer;
use crate::keys::KEYS;
use crate::refusals;
use crate::registers::{
    place, Store, KERNEL, PDR, PDR_A, PDR_ED, PDR_KEY, PDR_W, SR0, SR0_LENGTH, SR0_NONRESIDENT,
    SR0_READONLY, SR0_RELOCATE, SR0_TRAP, SR0_TRAP_ENABLE, SR3, SR3_KERNEL_D, SR3_SUPERVISOR_D,
    SR3_USER_D, SUPERVISOR, USER,
};
use crate::status::record;

/// Refusals 2 to 5, then rules 1 to 3, then the page.
#[inline(always)]
pub fn refer(store: &mut Store, mode: u32, space: u32, access: u32, phase: u32, va: u16) -> Answer {
    if let Some(number) = refusal(mode, space, access, phase) {
        return Answer::Refused(number);
    }
    if store[SR0] & SR0_RELOCATE == 0 {
        return unrelocated(va);
    }
    let (first_page, d_enable) = match mode {
        0 => (KERNEL, SR3_KERNEL_D),
        1 => (SUPERVISOR, SR3_SUPERVISOR_D),
        2 => return illegal_mode(store, cause(phase, mode, false, va)),
        _ => (USER, SR3_USER_D),
    };
    let d_set = space == 1 && store[SR3] & d_enable != 0;
    let page = first_page + 8 * usize::from(d_set) + usize::from(va >> 13);
    relocated(store, page, access == 1, va, cause(phase, mode, d_set, va))
}

fn refusal(mode: u32, space: u32, access: u32, phase: u32) -> Option<u8> {
    if mode > 3 {
        Some(refusals::MODE)
    } else if space > 1 {
        Some(refusals::SPACE)
    } else if access > 1 {
        Some(refusals::ACCESS)
    } else if phase > 1 {
        Some(refusals::PHASE)
    } else {
        None
    }
}

/// Rule 1: the byte is VA, and the top page is the I/O page. Request E1: none of
/// the 48 pages serves.
fn unrelocated(va: u16) -> Answer {
    let byte = u32::from(va);
    Answer::Granted {
        byte: if va < 0o160000 { byte } else { byte + 0o600000 },
        page: None,
        trap: false,
    }
}

/// Rule 2: mode 2 aborts with the non-resident flag only.
fn illegal_mode(store: &mut Store, cause: u16) -> Answer {
    record(store, SR0_NONRESIDENT, cause);
    Answer::Aborted {
        nonresident: true,
        length: false,
        readonly: false,
    }
}

/// Rule 9: SR0's bits 7:1 for an abort or trap of this reference.
fn cause(phase: u32, mode: u32, d_set: bool, va: u16) -> u16 {
    (phase as u16) << 7 | (mode as u16) << 5 | u16::from(d_set) << 4 | va >> 13 << 1
}

/// Rules 4 to 9, once the page is known.
#[inline(always)]
fn relocated(store: &mut Store, page: usize, write: bool, va: u16, cause: u16) -> Answer {
    let pdr = store[PDR + page];
    let key = KEYS[usize::from(pdr & PDR_KEY)];
    let block = va >> 6 & 0o177;

    let nonresident = key.nonresident();
    let length = outside_length(pdr, block);
    let readonly = key.readonly(write);
    if nonresident || length || readonly {
        let flags = flag(nonresident, SR0_NONRESIDENT)
            | flag(length, SR0_LENGTH)
            | flag(readonly, SR0_READONLY);
        record(store, flags, cause);
        return Answer::Aborted {
            nonresident,
            length,
            readonly,
        };
    }

    let byte = physical_byte(store[page], block, va);
    let condition = key.trap_condition(write);
    let marks = flag(condition, PDR_A) | flag(write, PDR_W);
    // Rule 7: a grant at a register's word leaves A and W as they are.
    if marks != 0 && place(byte).is_none() {
        store[PDR + page] |= marks;
    }
    let trap = condition && store[SR0] & SR0_TRAP_ENABLE != 0;
    if trap {
        record(store, SR0_TRAP, cause);
    }
    Answer::Granted {
        byte,
        page: Some(page as u8),
        trap,
    }
}

/// Rule 4: whether the block is past the length field, upward or downward.
fn outside_length(pdr: u16, block: u16) -> bool {
    let length = pdr >> 8 & 0o177;
    if pdr & PDR_ED == 0 {
        block > length
    } else {
        block < length
    }
}

/// Rule 5: the block is added modulo 4096, then VA 5:0 is put below it.
fn physical_byte(par: u16, block: u16, va: u16) -> u32 {
    let physical_block = ((par & 0o7777) + block) & 0o7777;
    u32::from(physical_block) << 6 | u32::from(va & 0o77)
}

fn flag(set: bool, bit: u16) -> u16 {
    if set {
        bit
    } else {
        0
    }
}
