//! Register addresses, right and wrong.

use crate::fields::{address_of, SR0, WORDS};
use crate::random::Random;

/// Words just outside and just inside the groups of registers.
const ENDS: [u32; 16] = [
    0o772176, 0o772200, 0o772236, 0o772240, 0o772276, 0o772300, 0o772376, 0o772400, 0o772514,
    0o772520, 0o777570, 0o777600, 0o777576, 0o777676, 0o777700, 0o777776,
];

/// An address, mostly of one of the 100 registers.
pub fn address(random: &mut Random) -> u32 {
    let register = address_of(place(random));
    match random.below(20) {
        0 => register + 1,
        1 => register - 2 + random.below(5),
        2 => random.pick(&ENDS) + random.below(2),
        3 => high(random, register),
        4 => random.below(0o1000000),
        _ => register,
    }
}

/// The four status registers come more often than each of the others.
fn place(random: &mut Random) -> usize {
    if random.percent(15) {
        SR0 + random.below(4) as usize
    } else {
        random.below(WORDS as u32) as usize
    }
}

/// Above 777777, often with a register's address in the low bits.
fn high(random: &mut Random, register: u32) -> u32 {
    match random.below(4) {
        0 => random.pick(&[0o1000000, 0o1000001, u32::MAX, u32::MAX - 1, 1 << 31]),
        1 => register | 1 << (18 + random.below(14)),
        2 => register + 0o1000000,
        _ => random.bits() as u32 | 0o1000000,
    }
}
